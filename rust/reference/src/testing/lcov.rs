//! Tracefiles: the specification's instances and the edges near them.

use crate::Refusal;

/// The tracefile of the specification's instances. The last section has no end
/// and the last line neither.
pub const FOUR_SECTIONS: &str = "TN:a\n\
    SF:a.c\nDA:1,1\nDA:2,0\nDA:3,5,abc\nend_of_record\n\
    SF:b.c\nFN:1,f\nDA:0004,00\nDA:4,1\nDA:4,2\nend_of_record\n\
    SF:c.c\nDA:9,x\nend_of_record\n\
    SF:d.c\nDA:7,1";

/// What a section makes of a line: `Some` for a record that can be read, with its
/// number if the count is above 0.
type Form = Option<Option<u32>>;

/// Records and lines that look like some, with what a section makes of each.
pub const SHORT_RECORD_FORMS: [(&str, Form); 49] = [
    ("DA:1,1", Some(Some(1))),
    ("DA:9,0", Some(None)),
    ("DA:10,10", Some(Some(10))),
    ("DA:4294967294,1", Some(Some(4_294_967_294))),
    ("DA:4294967295,1", Some(Some(4_294_967_295))),
    ("DA:04294967295,1", Some(Some(4_294_967_295))),
    ("DA:4294967295,0", Some(None)),
    ("DA:0001,0001", Some(Some(1))),
    ("DA:0001,0000", Some(None)),
    ("DA:1,4294967296", Some(Some(1))),
    ("DA:1,18446744073709551616", Some(Some(1))),
    ("DA:1,100000000000000000000000", Some(Some(1))),
    // What follows a second comma is free.
    ("DA:1,2,", Some(Some(1))),
    ("DA:1,0,", Some(None)),
    ("DA:1,2,x,y", Some(Some(1))),
    ("DA:1,2,,", Some(Some(1))),
    ("DA:1,2, 7", Some(Some(1))),
    ("DA:1,0,5", Some(None)),
    ("DA:1,2,\r", Some(Some(1))),
    ("DA:1,2,kQlpQ/yz0Cz/hQ==", Some(Some(1))),
    // No number, or one that is none of a line.
    ("DA:", None),
    ("DA:,", None),
    ("DA:,1", None),
    ("DA:0,1", None),
    ("DA:0,0", None),
    ("DA:000,1", None),
    ("DA:4294967296,1", None),
    ("DA:4294967296,0", None),
    ("DA:4294967300,1", None),
    ("DA:9999999999,1", None),
    ("DA:42949672950,1", None),
    ("DA:8589934593,1", None),
    ("DA:18446744073709551617,1", None),
    ("DA:123456789012345678901234567890,1", None),
    // No count.
    ("DA:1", None),
    ("DA:1,", None),
    ("DA:1,,", None),
    ("DA:1,,1", None),
    // Bytes that are no digits.
    ("DA:1,2x", None),
    ("DA:1,-1", None),
    ("DA:1,x", None),
    ("DA:1x,1", None),
    ("DA: 1,1", None),
    ("DA:1 ,1", None),
    ("DA:1, 1", None),
    ("DA:1,1 ", None),
    ("DA:+1,1", None),
    ("DA:1;1", None),
    ("DA:/,:", None),
];

/// Records with byte 13 at each place, and with very many digits.
fn long_record_forms() -> Vec<(String, Form)> {
    let many = |digit: &str| digit.repeat(3_000);
    let mut forms = vec![
        (format!("DA:{}7,1", many("0")), Some(Some(7))),
        (format!("DA:{}4294967296,1", many("0")), None),
        (format!("DA:{},1", many("0")), None),
        (format!("DA:{},1", many("9")), None),
        (format!("DA:7,{}", many("0")), Some(None)),
        (format!("DA:7,{}1", many("0")), Some(Some(7))),
        (format!("DA:7,1{}", many("0")), Some(Some(7))),
        (format!("DA:7,{}", many("9")), Some(Some(7))),
        (format!("DA:7,{}x", many("9")), None),
        (format!("DA:7,1,{}", many("x")), Some(Some(7))),
    ];
    for place in "DA:".len().."DA:1,1,".len() {
        let mut line = "DA:1,1,".to_string();
        line.insert(place, '\r');
        forms.push((line, None));
    }
    forms.push(("DA:1,1\r".to_string(), None));
    forms
}

/// All records, and lines that look like some, with what a section makes of
/// each.
pub fn record_forms() -> Vec<(String, Form)> {
    let short = SHORT_RECORD_FORMS.iter();
    let mut forms: Vec<_> = short
        .map(|&(line, form)| (line.to_string(), form))
        .collect();
    forms.extend(long_record_forms());
    forms
}

/// Lines that open and close nothing and are no records, wherever they stand.
pub const OTHER_LINES: [&str; 32] = [
    "",
    "\r",
    "TN:",
    "FN:1,f",
    "FNDA:1,f",
    "FNF:1",
    "BRDA:1,0,0,-",
    "LF:1",
    "LH:1",
    "SF",
    "SF;a.c",
    "SFX:a.c",
    " SF:a.c",
    "\rSF:a.c",
    "S\rF:a.c",
    "SF\r:a.c",
    "sf:a.c",
    "XSF:a.c",
    "DA",
    " DA:1,1",
    "da:1,1",
    "D\rA:1,1",
    "DA\r:1,1",
    "\rDA:1,1",
    "XDA:1,1",
    "end_of_record\r",
    "\rend_of_record",
    "end_of_record ",
    " end_of_record",
    "end_of_recor",
    "end_of_records",
    "END_OF_RECORD",
];

/// A tracefile, what is asked of it, and what is expected.
#[derive(Clone, Debug)]
pub struct LcovInstance {
    /// The tracefile.
    pub file: String,
    /// The index of the section.
    pub section: usize,
    /// The length of the row.
    pub room: usize,
    /// The numbers written.
    pub run: Vec<u32>,
    /// The refusal.
    pub refusal: Option<Refusal>,
}

/// An instance; refusal 0 stands for none.
fn expect(
    file: impl Into<String>,
    (section, room): (usize, usize),
    run: &[u32],
    (number, place): (u8, usize),
) -> LcovInstance {
    LcovInstance {
        file: file.into(),
        section,
        room,
        run: run.to_vec(),
        refusal: (number > 0).then(|| Refusal::new(number, place)),
    }
}

/// No refusal.
const ACCEPTED: (u8, usize) = (0, 0);

/// The instances of the specification and the edges near them.
pub fn lcov_instances() -> Vec<LcovInstance> {
    let mut all = vec![
        expect(FOUR_SECTIONS, (0, 9), &[1, 3], ACCEPTED),
        expect(FOUR_SECTIONS, (0, 1), &[1], (5, 1)),
        expect(FOUR_SECTIONS, (1, 9), &[4], (4, 1)),
        expect(FOUR_SECTIONS, (2, 9), &[], (15, 111)),
        expect(FOUR_SECTIONS, (3, 9), &[7], (16, 145)),
        expect(FOUR_SECTIONS, (4, 9), &[], (16, 145)),
        expect(FOUR_SECTIONS, (usize::MAX, 9), &[], (16, 145)),
    ];
    all.extend(orders());
    all.extend(sections());
    all.extend(file_ends());
    for (line, form) in record_forms() {
        all.extend(record(&line, form));
    }
    for line in OTHER_LINES {
        all.extend(passed_over(line));
    }
    all
}

/// The order of the refusals at one record and from record to record, and room
/// that is tested only where a number is due.
fn orders() -> Vec<LcovInstance> {
    let section = |records: &str| format!("SF:a\n{records}\nend_of_record\n");
    let of = |records: &str, room, run: &[u32], refusal| {
        expect(section(records), (0, room), run, refusal)
    };
    vec![
        of("DA:1,0\nDA:2,00", 0, &[], ACCEPTED),
        of("DA:1,1\nDA:2,0", 1, &[1], ACCEPTED),
        of("DA:1,1", 0, &[], (5, 0)),
        of("DA:1,1\nDA:2,1", 1, &[1], (5, 1)),
        // A count of 0 is left out before rising and room are tested.
        of("DA:5,1\nDA:3,0\nDA:5,0\nDA:6,1", 2, &[5, 6], ACCEPTED),
        of("DA:9,0\nDA:3,1", 1, &[3], ACCEPTED),
        of("DA:5,1\nDA:9,0\nDA:7,1", 2, &[5, 7], ACCEPTED),
        // It is tested for its form all the same.
        of("DA:5,1\nDA:0,0", 1, &[5], (15, 12)),
        of("DA:5,1\nDA:6,0x", 1, &[5], (15, 12)),
        // What does not rise is refused before a row that is full.
        of("DA:5,1\nDA:5,1", 1, &[5], (4, 1)),
        of("DA:5,1\nDA:4,1", 1, &[5], (4, 1)),
        of("DA:5,1\nDA:4,1", 9, &[5], (4, 1)),
        of("DA:5,1\nDA:6,1\nDA:1,1", 9, &[5, 6], (4, 2)),
        of("DA:4294967295,1\nDA:1,1", 9, &[4_294_967_295], (4, 1)),
        // Form comes before both.
        of("DA:5,1\nDA:4,1x", 1, &[5], (15, 12)),
        of("DA:5,1\nDA:6,1x", 1, &[5], (15, 12)),
        // The first record at fault decides.
        of("DA:5,1\nDA:4,1\nDA:x", 9, &[5], (4, 1)),
        of("DA:5,1\nDA:6,1\nDA:x", 1, &[5], (5, 1)),
        of("DA:5,1\nDA:x\nDA:4,1", 9, &[5], (15, 12)),
    ]
}

/// What opens and closes a section, and which one is read.
fn sections() -> Vec<LcovInstance> {
    let nested = "SF:a\nDA:1,1\nSF:b\nDA:2,1\nend_of_record\nDA:3,x\nSF:c\nDA:4,1\nend_of_record\n";
    let closed_twice = "end_of_record\nSF:a\nend_of_record\nend_of_record\nSF:b\nDA:2,1\n\
                        end_of_record\nDA:3,1\nend_of_record\n";
    let faults = "DA:x\nSF:a\nDA:0,0\nDA:5,1\nDA:5,1\nend_of_record\nDA:y\nSF:b\nDA:2,1\n\
                  end_of_record\nDA:z\n";
    vec![
        expect(nested, (0, 9), &[1, 2], ACCEPTED),
        expect(nested, (1, 9), &[4], ACCEPTED),
        expect(nested, (2, 9), &[], (16, nested.len())),
        expect(closed_twice, (0, 9), &[], ACCEPTED),
        expect(closed_twice, (1, 9), &[2], ACCEPTED),
        expect(closed_twice, (2, 9), &[], (16, closed_twice.len())),
        expect(faults, (0, 9), &[], (15, 10)),
        expect(faults, (1, 9), &[2], ACCEPTED),
        expect(faults, (2, 9), &[], (16, faults.len())),
        // An opening line may have no name, or one that looks like a record.
        expect("SF:\nDA:1,1\nend_of_record", (0, 9), &[1], ACCEPTED),
        expect("SF:SF:\nend_of_record", (0, 9), &[], ACCEPTED),
        expect("SF:DA:1,1\nend_of_record", (0, 9), &[], ACCEPTED),
        expect("SF:end_of_record\nDA:1,1\n", (0, 9), &[1], (16, 24)),
        expect("SF:a\r\nDA:1,1\nend_of_record\n", (0, 9), &[1], ACCEPTED),
    ]
}

/// Where the file ends.
fn file_ends() -> Vec<LcovInstance> {
    let mut all: Vec<LcovInstance> = ["", "\n", "\n\n\n", "end_of_record", "end_of_record\n"]
        .map(|file| expect(file, (0, 9), &[], (16, file.len())))
        .into();
    let whole = "SF:a\nDA:3,1\nDA:7,2\nend_of_record\n";
    for length in 0..=whole.len() {
        let file = &whole[..length];
        let run = [3, 7];
        // The numbers of the records that end before, or with, the file: a
        // record that is cut in its number or before its count is refused.
        let (run, refusal): (&[u32], _) = match length {
            8..=10 => (&run[..0], (15, 5)),
            0..=10 => (&run[..0], (16, length)),
            15..=17 => (&run[..1], (15, 12)),
            11..=17 => (&run[..1], (16, length)),
            32.. => (&run, ACCEPTED),
            _ => (&run, (16, length)),
        };
        all.push(expect(file, (0, 9), run, refusal));
    }
    all
}

/// A record in the section asked for, with its line end and without, and in
/// places where none is read.
fn record(line: &str, form: Form) -> Vec<LcovInstance> {
    let front = "SF:a\nTN:\n";
    let number = form.flatten();
    let run = number.as_slice();
    let closed = format!("{front}{line}\nend_of_record\n");
    let cut = format!("{front}{line}");
    let bad = (15, front.len());
    let (at_the_end, refusal) = match form {
        Some(_) => ((16, cut.len()), ACCEPTED),
        None => (bad, bad),
    };
    let other = |file: String| expect(file, (1, 1), &[8], ACCEPTED);
    let second = "SF:b\nDA:8,1\nend_of_record";
    vec![
        expect(closed.clone(), (0, 1), run, refusal),
        expect(cut, (0, 1), run, at_the_end),
        other(format!("{line}\n{closed}{second}")),
        other(format!("{closed}{line}\n{second}\n{line}")),
    ]
}

/// A line that is nothing in a section, and opens none.
fn passed_over(line: &str) -> Vec<LcovInstance> {
    let among = format!("{line}\nSF:a\n{line}\nDA:1,1\n{line}\nend_of_record\n{line}");
    let opens_none = format!("{line}\nDA:1,1\nend_of_record\n");
    let closes_none = format!("SF:a\nDA:1,1\n{line}");
    vec![
        expect(&among, (0, 1), &[1], ACCEPTED),
        expect(&among, (1, 1), &[], (16, among.len())),
        expect(&opens_none, (0, 1), &[], (16, opens_none.len())),
        expect(&closes_none, (0, 1), &[1], (16, closes_none.len())),
    ]
}
