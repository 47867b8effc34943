//! Random traces are good traces: every line is played, the run is one of the service, and no call does what no call may.

use twin::foyer;
use twin::random::displays::scripts;
use twin::random::trace;
use twin::replay::{play, Mode};

const SEEDS: u64 = 30;
const STEPS: u64 = 300;

fn played(text: &str) -> String {
    let mut printed = Vec::new();
    play(text.as_bytes(), Mode::Plain, &mut printed).expect("a vector takes all");
    String::from_utf8(printed).expect("what is printed is text")
}

#[test]
fn every_line_is_played() {
    for seed in 1..=SEEDS {
        let text = trace(seed, STEPS).expect("the run is one of the service");
        let printed = played(&text);
        let last = printed.lines().last().unwrap_or("");
        let lines = format!("{} lines, ", text.lines().count());
        assert!(last.starts_with(&lines), "seed {seed}: {last}");
        for fault in ["bad", "CHANGED", "OTHER BYTES"] {
            assert!(!printed.contains(fault), "seed {seed}: {fault}");
        }
    }
}

#[test]
fn a_seed_gives_one_trace() {
    assert_eq!(trace(7, STEPS), trace(7, STEPS));
    assert_ne!(trace(7, STEPS), trace(8, STEPS));
}

#[test]
fn lines_are_short() {
    for seed in 1..=SEEDS {
        let text = trace(seed, STEPS).expect("the run is one of the service");
        assert!(text.lines().all(|line| line.len() <= twin::trace::LINE));
        assert!(text.len() < 100 * STEPS as usize, "seed {seed}");
    }
}

/// "It gives "none" exactly where the event would be neither refused nor Ignored."; "An event that would be refused as 3 to 11 yields that
/// number." Questions 1 and 2 are not asked.
#[test]
fn reasons_agree_with_answers() {
    let mut seen = 0;
    for seed in 1..=SEEDS {
        let printed = played(&trace(seed, STEPS).expect("the run is one of the service"));
        for line in printed.lines() {
            let parts: Vec<&str> = line.split("; ").collect();
            let [said, _, _, reason] = parts[..] else {
                continue;
            };
            let answer = said.split_once(' ').map_or("", |(_, answer)| answer);
            let agrees = match answer {
                "refused 1" | "refused 2" => true,
                "ignored" => reason != "none" && !reason.starts_with("refused"),
                _ if answer.starts_with("refused") => reason == answer,
                _ => reason == "none",
            };
            assert!(agrees, "seed {seed}: {line}");
            seen += 1;
        }
    }
    assert!(seen > SEEDS * STEPS / 2);
}

/// Random scripts of foyer are good scripts, each number is handed out once, missing or lost once, and every branch of the list comes.
#[test]
fn scripts_of_displays() {
    let written = scripts(1, SEEDS, STEPS).expect("each number has one fate");
    let mut printed = Vec::new();
    foyer::play(written.text.as_bytes(), &mut printed).expect("a vector takes all");
    let printed = String::from_utf8(printed).expect("what is printed is text");
    assert!(!printed.contains("bad") && !printed.contains("CHANGED"));
    assert!(written.text.lines().all(|line| line.len() <= foyer::LINE));
    assert_eq!(written.seen.never().collect::<Vec<_>>(), [""; 0]);
    for text in written.text.lines().filter(|line| !line.starts_with('#')) {
        let does = foyer::Does::parse(text.as_bytes());
        let again = does.flatten().map(|does| does.to_string());
        assert_eq!(again.as_deref(), Some(text));
    }
}
