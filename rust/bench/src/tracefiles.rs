//! Tracefiles of exactly 100,000,000 bytes, equal in every run of the program,
//! with the records that geninfo writes.

use reference::testing::Random;
use std::fmt::{self, Write};

/// The bytes of every tracefile.
pub const BYTES: usize = 100_000_000;

/// One line of the table of tracefiles. [`Display`](fmt::Display) gives its name.
#[derive(Clone, Copy)]
pub struct Case {
    name: &'static str,
    make: fn() -> Tracefile,
}

impl fmt::Display for Case {
    fn fmt(&self, f: &mut fmt::Formatter<'_>) -> fmt::Result {
        f.pad(self.name)
    }
}

impl Case {
    /// Makes its tracefile.
    pub fn tracefile(&self) -> Tracefile {
        (self.make)()
    }
}

/// The cases of the table.
pub fn cases() -> Vec<Case> {
    vec![
        Case {
            name: "tracefile, last section",
            make: many_sections,
        },
        Case {
            name: "tracefile, one section",
            make: one_section,
        },
    ]
}

/// A tracefile whose last section is asked for.
pub struct Tracefile {
    /// Its bytes.
    pub bytes: Vec<u8>,
    /// How many sections it has.
    pub sections: usize,
}

impl Tracefile {
    /// The sections one after another; a test's name in front makes up for the
    /// bytes that are missing.
    fn new(sections: &str, count: usize) -> Self {
        let missing = BYTES - sections.len() - "TN:\n".len();
        let file = format!("TN:{}\n{sections}", "t".repeat(missing));
        assert_eq!(file.len(), BYTES);
        Tracefile {
            bytes: file.into_bytes(),
            sections: count,
        }
    }
}

/// Longer than a section of some hundred lines, and than a record.
const LONGEST: usize = 100_000;

/// Many sections of some hundred lines, with records of all kinds.
fn many_sections() -> Tracefile {
    let mut random = Random(6);
    let mut file = String::with_capacity(BYTES);
    let mut sections = 0;
    while file.len() < BYTES - LONGEST {
        let lines = random.from_to(100, 900);
        write_section(&mut file, &mut random, sections, lines);
        sections += 1;
    }
    Tracefile::new(&file, sections)
}

/// One section whose records are almost all that there is.
fn one_section() -> Tracefile {
    let mut random = Random(7);
    let mut file = String::with_capacity(BYTES);
    file.push_str("SF:src/generated.c\n");
    let (mut line, mut hit) = (0, 0);
    let mut found = 0;
    while file.len() < BYTES - LONGEST {
        line += random.from_to(1, 2);
        found += 1;
        hit += usize::from(write_record(&mut file, &mut random, line));
    }
    write_end(&mut file, found, hit);
    Tracefile::new(&file, 1)
}

/// A section of a source file of so many lines.
fn write_section(file: &mut String, random: &mut Random, index: usize, lines: usize) {
    write_line(file, format_args!("TN:unit"));
    write_line(file, format_args!("SF:src/module_{index}.c"));
    let starts: Vec<usize> = (1..lines).step_by(random.from_to(20, 50)).collect();
    for start in &starts {
        write_line(file, format_args!("FN:{start},module_{index}_step_{start}"));
    }
    for start in &starts {
        let calls = random.below(40);
        write_line(
            file,
            format_args!("FNDA:{calls},module_{index}_step_{start}"),
        );
    }
    write_line(file, format_args!("FNF:{0}\nFNH:{0}", starts.len()));
    let branches: Vec<usize> = (5..lines).step_by(random.from_to(6, 15)).collect();
    for line in &branches {
        let taken = random.below(9);
        write_line(
            file,
            format_args!("BRDA:{line},0,0,{taken}\nBRDA:{line},0,1,-"),
        );
    }
    write_line(
        file,
        format_args!("BRF:{}\nBRH:{}", 2 * branches.len(), branches.len()),
    );
    let (mut line, mut found, mut hit) = (0, 0, 0);
    while line < lines {
        line += random.pick(&[1, 1, 1, 1, 2, 3, 8]);
        found += 1;
        hit += usize::from(write_record(file, random, line));
    }
    write_end(file, found, hit);
}

/// A `DA:` record, one in four with count 0. Returns whether it is above 0.
fn write_record(file: &mut String, random: &mut Random, line: usize) -> bool {
    let count = match random.below(8) {
        0 | 1 => 0,
        2 => random.from_to(1, 2_000_000),
        _ => random.from_to(1, 40),
    };
    write_line(file, format_args!("DA:{line},{count}"));
    count > 0
}

fn write_end(file: &mut String, found: usize, hit: usize) {
    write_line(file, format_args!("LF:{found}\nLH:{hit}\nend_of_record"));
}

fn write_line(file: &mut String, line: fmt::Arguments) {
    writeln!(file, "{line}").expect("a string takes all");
}
