//! The time of a verdict beside that of the twin's reader: the same messages in the same order, both built for release, one after the other, the
//! least of eleven rounds. No buffer is cleared: neither reader has one.
use std::hint::black_box;
use std::time::Instant;

/// A kind of message, and its bytes in hexadecimal digits.
const MESSAGES: [(&str, &str); 10] = [
    ("probe", ""),
    ("DATA, 40 bytes", "1102000000000188010200050201FFFEFFFF000007D001F400000000000000000000000000000000"),
    ("old DATA, 39 bytes", "01020000000001880102050201FFFEFFFF000007D001F400000000000000000000000000000000"),
    ("RQST, 16 bytes", "12010000000001880100000101000000"),
    ("REPL, 40 bytes", "13010000000001880100000107010000FFFEFFFF000103E700000000000000000000000000000000"),
    (
        "SESS, 127 bytes",
        concat!(
            "1407FFFFFFFFFFFF00000800003F01000002000103000204001F05002006003E07FFFF070000000000000000000000000001",
            "FFFFFFFFFFFFFFFFFFFFFFFF02000000000000FFFFFFFFFFFF03FFFFFFFFFFFF000000000000040000000000010000000001",
            "000500000001000000000100000006000100000000010000000000",
        ),
    ),
    ("refused 8", "1102000000000188010200050201FFFEFFFF000007D001F4000000000000000000000000000000"),
    ("refused 9", "000000000000018800000000"),
    ("refused 10", "1102000000000188010200050201F82FFFFF000007D001F400000000000000000000000000000000"),
    ("refused 11", "1102000000000188010200050301FFFEFFFF000007D001F400000000000000000000000000000000"),
];

const TURNS: u32 = 200_000;
const ROUNDS: usize = 11;

fn bytes(digits: &str) -> Vec<u8> {
    let pair = |at| u8::from_str_radix(&digits[at..at + 2], 16).unwrap();
    (0..digits.len()).step_by(2).map(pair).collect()
}

/// Nanoseconds of one call, in one round.
fn round(message: &[u8], call: impl Fn(&[u8]) -> u32) -> f64 {
    let began = Instant::now();
    for _ in 0..TURNS {
        black_box(call(black_box(message)));
    }
    began.elapsed().as_nanos() as f64 / f64::from(TURNS)
}

fn ours(message: &[u8]) -> u32 {
    cue_panel::verdict(message).map_or_else(|refusal| refusal.number().into(), |_| 0)
}

fn main() {
    println!(
        "{:<20} {:>9} {:>9} {:>7}",
        "message", "ours, ns", "twin, ns", "ratio"
    );
    for (name, digits) in MESSAGES {
        let message = bytes(digits);
        assert_eq!(ours(&message), twin::panel::verdict(&message), "{name}");
        let (mut least, mut twins) = (f64::MAX, f64::MAX);
        for _ in 0..ROUNDS {
            least = least.min(round(&message, ours));
            twins = twins.min(round(&message, twin::panel::verdict));
        }
        println!(
            "{name:<20} {least:>9.1} {twins:>9.1} {:>7.2}",
            least / twins
        );
    }
}
