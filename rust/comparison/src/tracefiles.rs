//! LCOV tracefiles: as geninfo writes them, damaged ones, lines and bytes in any
//! order, and all small ones.

use reference::testing::{record_forms, Random, M, OTHER_LINES, SHORT_RECORD_FORMS};

/// How many sections a tracefile opens.
pub fn sections_of(file: &[u8]) -> usize {
    let (mut sections, mut is_open) = (0, false);
    for line in file.split(|&byte| byte == b'\n') {
        if line == b"end_of_record" {
            is_open = false;
        } else if !is_open && line.starts_with(b"SF:") {
            is_open = true;
            sections += 1;
        }
    }
    sections
}

/// Lines as a file, each with its line end.
fn file_of<L: AsRef<[u8]>>(lines: &[L]) -> Vec<u8> {
    let mut file = Vec::new();
    for line in lines {
        file.extend_from_slice(line.as_ref());
        file.push(b'\n');
    }
    file
}

/// A tracefile as geninfo writes it: no to five sections with records of all
/// kinds.
pub fn well_formed(random: &mut Random) -> Vec<u8> {
    file_of(&well_formed_lines(random))
}

fn well_formed_lines(random: &mut Random) -> Vec<String> {
    let mut lines = Vec::new();
    for _ in 0..random.below(6) {
        lines.extend(section(random));
    }
    lines
}

/// The lines of one section.
fn section(random: &mut Random) -> Vec<String> {
    let source = random.pick(&["main.c", "src/frame.c", "DA:1,1", "", "a,b:c d.c"]);
    let test = random.pick(&["", "unit", "SF"]);
    let mut lines = vec![format!("TN:{test}"), format!("SF:{source}")];
    let functions = random.below(4);
    for i in 0..functions {
        lines.push(format!("FN:{},f{i}", 10 * i + 1));
    }
    for i in 0..functions {
        lines.push(format!("FNDA:{},f{i}", random.below(9)));
    }
    lines.push(format!("FNF:{functions}"));
    lines.push(format!("FNH:{functions}"));
    for i in 0..random.below(4) {
        let taken = random.pick(&["-", "0", "1", "25"]);
        lines.push(format!("BRDA:{},0,{i},{taken}", random.from_to(1, 60)));
    }
    lines.extend(["BRF:2", "BRH:1"].map(str::to_string));
    let records = records(random);
    let is_hit = |record: &&String| !record.contains(",0");
    let (found, hit) = (records.len(), records.iter().filter(is_hit).count());
    lines.extend(records);
    lines.extend([format!("LF:{found}"), format!("LH:{hit}")]);
    lines.push("end_of_record".to_string());
    lines
}

/// The `DA:` lines of a section, which rise, with a checksum or without.
fn records(random: &mut Random) -> Vec<String> {
    let widest = random.pick(&[1, 3, 40, 100_000_000]);
    let hit_rarely = random.one_in(4);
    let has_checksum = random.one_in(3);
    let mut number = random.pick(&[0, 0, 0, M as usize - 60]);
    let mut records = Vec::new();
    for _ in 0..random.pick(&[0, 1, 2, 5, 12, 40]) {
        number += random.from_to(1, widest);
        if number > M as usize {
            break;
        }
        let count = match random.below(8) {
            _ if hit_rarely && !random.one_in(6) => 0,
            0 | 1 => 0,
            2 => random.bits(),
            _ => random.from_to(1, 30) as u64,
        };
        let checksum = if has_checksum { ",kQlpQ/yz0Cz/hQ" } else { "" };
        records.push(format!("DA:{number},{count}{checksum}"));
    }
    records
}

/// A tracefile of geninfo's with one to five damages.
pub fn damaged(random: &mut Random) -> Vec<u8> {
    let mut lines = well_formed_lines(random);
    let (of_lines, of_bytes) = (random.below(4), random.below(3));
    for _ in 0..of_lines {
        damage_lines(random, &mut lines);
    }
    let mut bytes = file_of(&lines);
    for _ in 0..of_bytes.max(usize::from(of_lines == 0)) {
        damage_bytes(random, &mut bytes);
    }
    bytes
}

/// The places of the lines that begin so.
fn places_of(lines: &[String], front: &str) -> Vec<usize> {
    let begins = |i: &usize| lines[*i].starts_with(front);
    (0..lines.len()).filter(begins).collect()
}

/// Changes the lines in one way.
fn damage_lines(random: &mut Random, lines: &mut Vec<String>) {
    if lines.is_empty() {
        lines.push("SF:a.c".to_string());
        return;
    }
    let (records, ends) = (places_of(lines, "DA:"), places_of(lines, "end_of_record"));
    let place = random.below(lines.len());
    match random.below(12) {
        0 => drop(lines.remove(place)),
        1 => lines.insert(place, lines[place].clone()),
        2 => {
            let other = random.below(lines.len());
            lines.swap(place, other);
        }
        // A section that does not end, and one that seems to begin in another.
        3 if !ends.is_empty() => drop(lines.remove(random.pick(&ends))),
        4 => lines.insert(place, "SF:inner.c".to_string()),
        5 => lines.insert(place, "end_of_record".to_string()),
        6 => lines[place].push('\r'),
        7 => lines.iter_mut().for_each(|line| line.push('\r')),
        // Records that repeat or fall.
        8 if !records.is_empty() => {
            let (from, to) = (random.pick(&records), random.pick(&records));
            lines.insert(to, lines[from].clone());
        }
        9 if !records.is_empty() => {
            let number = random.pick(&["1", "3", "0", "4294967295", "4294967296"]);
            lines.insert(random.pick(&records), format!("DA:{number},1"));
        }
        10 if !records.is_empty() => {
            lines[random.pick(&records)] = random.pick(&SHORT_RECORD_FORMS).0.to_string();
        }
        _ => lines.insert(place, random.pick(&OTHER_LINES).to_string()),
    }
}

/// Changes the bytes in one way.
fn damage_bytes(random: &mut Random, bytes: &mut Vec<u8>) {
    if bytes.is_empty() {
        bytes.push(random.bits() as u8);
        return;
    }
    let place = random.below(bytes.len());
    match random.below(7) {
        0 => bytes[place] ^= 1 << random.below(8),
        1 => bytes.insert(place, random.pick(ALPHABET)),
        2 => bytes[place] = random.pick(ALPHABET),
        3 => drop(bytes.remove(place)),
        // No last line end, and lines that are cut.
        4 => drop(bytes.pop()),
        5 => bytes.truncate(place),
        _ => {
            let rest = bytes[place..].iter();
            let length = rest.take_while(|&&byte| byte != b'\n').count();
            bytes.drain(place..place + length);
        }
    }
}

/// The bytes that tracefiles are made of, and some near them.
const ALPHABET: &[u8] = b"0123456789,:SFDATNendofrcr_\n\n\r /;\0\xff";

/// Records with thousands of digits, some of which can be read.
pub fn long_records(random: &mut Random) -> Vec<u8> {
    let forms = record_forms();
    let mut lines = vec!["SF:a.c".to_string()];
    for number in 1..random.from_to(2, 6) {
        let zeros = "0".repeat(random.pick(&[0, 1, 9, 70, 4_000]));
        let count = random.pick(&["0", "1", "7"]);
        let more = "0".repeat(random.pick(&[0, 1, 19, 5_000]));
        lines.push(format!("DA:{zeros}{number},{zeros}{count}{more}"));
    }
    if random.one_in(2) {
        let place = random.from_to(1, lines.len());
        lines.insert(place, forms[random.below(forms.len())].0.clone());
    }
    if !random.one_in(4) {
        lines.push("end_of_record".to_string());
    }
    let mut bytes = file_of(&lines);
    if random.one_in(4) {
        damage_bytes(random, &mut bytes);
    }
    bytes
}

/// Lines at the edges of the form, in any order.
pub fn edge_lines(random: &mut Random) -> Vec<u8> {
    let line = |random: &mut Random| match random.below(16) {
        0 | 1 => "SF:a.c".to_string(),
        2 | 3 => "end_of_record".to_string(),
        4 => random.pick(&OTHER_LINES).to_string(),
        5 => random.pick(&SHORT_RECORD_FORMS).0.to_string(),
        6 => format!("DA:{},0", random.below(9)),
        _ => format!("DA:{},1", random.from_to(1, 60)),
    };
    let count = random.below(14);
    let lines: Vec<String> = (0..count).map(|_| line(random)).collect();
    cut_last_end(random, file_of(&lines))
}

/// The file, in half of all cases without its last line end.
fn cut_last_end(random: &mut Random, mut file: Vec<u8>) -> Vec<u8> {
    if random.one_in(2) {
        file.pop();
    }
    file
}

/// Words of the form in any order.
pub fn words(random: &mut Random) -> Vec<u8> {
    const WORDS: [&str; 18] = [
        "SF:",
        "\nSF:",
        "DA:",
        "\nDA:",
        "\nDA:",
        "\nDA:1,1",
        "\nDA:2,1",
        "\nDA:5,0",
        ",",
        "0",
        "1",
        "3",
        "4294967295",
        "\n",
        "\n",
        "\r",
        "\nend_of_record",
        "\nend_of_record\n",
    ];
    let count = random.below(24);
    let words: Vec<&str> = (0..count).map(|_| random.pick(&WORDS)).collect();
    words.concat().into_bytes()
}

/// Lines that begin as those of the form do and go on with any bytes.
pub fn any_bytes(random: &mut Random) -> Vec<u8> {
    scattered(random, |random| random.bits() as u8)
}

/// The same with bytes of the form only.
pub fn bytes_of_the_form(random: &mut Random) -> Vec<u8> {
    scattered(random, |random| random.pick(ALPHABET))
}

fn scattered(random: &mut Random, any: fn(&mut Random) -> u8) -> Vec<u8> {
    const FRONTS: [&str; 9] = [
        "",
        "SF:",
        "DA:",
        "DA:1",
        "DA:2,",
        "DA:3,4",
        "DA:5,0",
        "DA:6,7,",
        "end_of_record",
    ];
    let mut bytes = Vec::new();
    for _ in 0..random.below(12) {
        bytes.extend(random.pick(&FRONTS).bytes());
        let more = random.pick(&[0, 0, 0, 1, 2, 9]);
        bytes.extend((0..more).map(|_| any(random)));
        bytes.push(b'\n');
    }
    cut_last_end(random, bytes)
}

/// All files of at most `most` lines of a few kinds, each with its last line end
/// and without.
pub fn all_small_files(most: u32) -> impl Iterator<Item = Vec<u8>> {
    const LINES: [&str; 7] = [
        "SF:",
        "end_of_record",
        "DA:1,1",
        "DA:2,1",
        "DA:3,0",
        "DA:,",
        "end_of_record\r",
    ];
    all_words(LINES.len(), most).flat_map(|places| {
        let lines: Vec<&str> = places.iter().map(|&i| LINES[i]).collect();
        [lines.join("\n"), lines.join("\n") + "\n"].map(String::into_bytes)
    })
}

/// All records of at most `most` bytes of a few kinds, after one that can be
/// read.
pub fn all_short_records(most: u32) -> impl Iterator<Item = Vec<u8>> {
    const BYTES: &[u8] = b"019,x\r";
    all_words(BYTES.len(), most).map(|places| {
        let record: Vec<u8> = places.iter().map(|&i| BYTES[i]).collect();
        [b"SF:\nDA:1,1\nDA:", &record[..], b"\nend_of_record\n"].concat()
    })
}

/// All words of at most `most` letters, each letter being below `letters`.
fn all_words(letters: usize, most: u32) -> impl Iterator<Item = Vec<usize>> {
    (0..=most).flat_map(move |length| {
        let letter = move |word: usize, i: u32| word / letters.pow(i) % letters;
        let word = move |word| (0..length).map(|i| letter(word, i)).collect();
        (0..letters.pow(length)).map(word)
    })
}
