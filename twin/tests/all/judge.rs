//! The judge of a kept run, on the records of the crate `test_judge` and on random ones.

use std::fs;

use twin::judge::{judge, random_record, Line, Verdict};

/// The stored records, each after a line that starts with `next`, and what is stored as printed for them.
#[test]
fn stored_records() {
    let stored = fs::read("../crates/test_judge/stdin").expect("the stored records");
    let expected = fs::read_to_string("../crates/test_judge/stdout").expect("what is stored as printed");
    let mut printed = String::new();
    let mut record: Option<Vec<u8>> = None;
    for line in stored.split_inclusive(|&byte| byte == b'\n') {
        if !line.starts_with(b"next") {
            record.as_mut().expect("a record after its name").extend(line);
            continue;
        }
        if let Some(whole) = record.replace(Vec::new()) {
            printed += &format!("{}\n", judge(&whole));
        }
        printed += &String::from_utf8_lossy(line);
    }
    printed += &format!("{}\n", judge(&record.expect("a record")));
    assert_eq!(printed, expected);
}

/// A quarter of the random records is as the book permits; every verdict comes.
#[test]
fn random_records_judged() {
    let mut seen = [false; 4];
    for seed in 0..1024 {
        let verdict = judge(&random_record(seed));
        seen[match verdict {
            Verdict::Allowed => 0,
            Verdict::Broken(_) => 1,
            Verdict::Refused(16) => 2,
            Verdict::Refused(_) => 3,
        }] = true;
        if seed % 4 == 0 {
            assert_eq!(verdict, Verdict::Allowed, "seed {seed}");
        }
    }
    assert_eq!(seen, [true; 4]);
}

/// A line is written as it is read.
#[test]
fn lines_read_back() {
    for seed in (0..400).step_by(4) {
        for line in random_record(seed).split(|&byte| byte == b'\n').filter(|line| !line.is_empty()) {
            let read = Line::parse(line).expect("a line of a permitted record");
            assert_eq!(read.to_string().as_bytes(), line);
        }
    }
}
