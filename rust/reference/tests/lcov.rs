//! One section of an LCOV tracefile: the specification's instances and the
//! edges near them, and files of which only one section can be read.

use reference::testing::{lcov_instances, Random, FOUR_SECTIONS};
use reference::{lcov_run, Reading, Refusal};

/// What stands in place `i` of a row before a call.
fn noise(i: usize) -> u32 {
    1_000_000_000 + i as u32
}

/// Reads into a row of so many places. Returns the reading and what it wrote,
/// having tested that the places after it are unchanged.
fn read(file: &[u8], section: usize, room: usize) -> (Reading, Vec<u32>) {
    let mut row: Vec<u32> = (0..room).map(noise).collect();
    let reading = lcov_run(file, section, &mut row);
    let rest = row.split_off(reading.written as usize);
    let unchanged: Vec<u32> = (row.len()..room).map(noise).collect();
    assert_eq!(rest, unchanged);
    (reading, row)
}

#[test]
fn every_instance() {
    assert_eq!(FOUR_SECTIONS.len(), 145);
    let instances = lcov_instances();
    assert!(instances.len() > 400, "{}", instances.len());
    for instance in instances {
        let file = instance.file.as_bytes();
        let expected = Reading {
            written: instance.run.len() as u64,
            refusal: instance.refusal,
        };
        let found = read(file, instance.section, instance.room);
        assert_eq!(found, (expected, instance.run.clone()), "{instance:?}");
    }
}

/// With room for fewer numbers than there are, so many are written and the next
/// is refused; with room for exactly as many, or more, nothing is.
#[test]
fn every_room() {
    let numbers = [2, 3, 50, 51, 4_294_967_295];
    let records = numbers.map(|number| format!("DA:{number},1\nDA:1,0\n"));
    let file = format!("SF:a\n{}end_of_record\n", records.concat());
    for room in 0..=7 {
        let written = room.min(numbers.len());
        let full = (room < numbers.len()).then_some(Refusal {
            number: 5,
            place: room as u64,
        });
        let expected = Reading {
            written: written as u64,
            refusal: full,
        };
        let found = read(file.as_bytes(), 0, room);
        assert_eq!(found, (expected, numbers[..written].to_vec()));
    }
}

/// Random sections one after another, with lines of no meaning between: each
/// index gives the numbers of its own section.
#[test]
fn each_section_alone() {
    for seed in 0..10_000 {
        let mut random = Random(seed);
        let mut file = String::new();
        let mut runs: Vec<Vec<u32>> = Vec::new();
        for _ in 0..random.below(5) {
            let mut run = Vec::new();
            file += "TN:\nDA:0,x\nend_of_record\nSF:a.c\nSF:b.c\n";
            for number in 1..random.from_to(1, 12) as u32 {
                let is_hit = random.one_in(2);
                file += &format!("DA:{number},{}\n", u32::from(is_hit) * 30);
                run.extend(is_hit.then_some(number));
            }
            file += "end_of_record\n";
            runs.push(run);
        }
        let file = file.as_bytes();
        for (section, run) in runs.iter().enumerate() {
            let accepted = Reading {
                written: run.len() as u64,
                refusal: None,
            };
            let found = read(file, section, 20);
            assert_eq!(found, (accepted, run.clone()), "seed {seed}");
        }
        let missing = Reading {
            written: 0,
            refusal: Some(Refusal {
                number: 16,
                place: file.len() as u64,
            }),
        };
        for section in [runs.len(), runs.len() + 1, usize::MAX] {
            assert_eq!(read(file, section, 20), (missing, vec![]), "seed {seed}");
        }
    }
}
