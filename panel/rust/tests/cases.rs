//! The cases of panel/cases.txt on the library and on the twin, and the numbers of panel.h.
use cue_panel::{cue_test, verdict, write_data, Datagram, Refusal, CUE_LENGTH, DATA_LENGTH, ROOM};

const CASES: &str = include_str!("../../cases.txt");
const HEADER: &str = include_str!("../../panel.h");

fn bytes(word: &str) -> Vec<u8> {
    if word == "none" {
        return vec![];
    }
    let digits = |at| u8::from_str_radix(&word[at..at + 2], 16).unwrap();
    (0..word.len()).step_by(2).map(digits).collect()
}

fn number(word: &str) -> u64 {
    word.parse().unwrap()
}

/// The number of a call's answer.
fn answer<T>(given: Result<T, Refusal>, fine: u32) -> u32 {
    match given {
        Ok(_) => fine,
        Err(refusal) => refusal.number().into(),
    }
}

/// The answers of the library and of the twin to a line's call, and what they leave in the output.
fn play(words: &[&str]) -> [(u32, Vec<u8>); 2] {
    match words[0] {
        "verdict" => {
            let given = bytes(words[1]);
            let ours = answer(verdict(&given), 0);
            [(ours, vec![]), (twin::panel::verdict(&given), vec![])]
        }
        "cue" => {
            let given = bytes(words[1]);
            let ours = answer(cue_test(&given), 0);
            [(ours, vec![]), (twin::panel::cue_test(&given), vec![])]
        }
        "write" => {
            let [sender, number, stamp] = [1, 2, 3].map(|at| number(words[at]));
            let cue = bytes(words[4]);
            let room = words[5].parse().unwrap();
            let (mut one, mut other) = (vec![0xAA; room], vec![0xAA; room]);
            let ours = answer(write_data(sender, number, stamp, &cue, &mut one), 40);
            let theirs = twin::panel::write_data(sender, number, stamp, &cue, &mut other);
            [(ours, one), (theirs, other)]
        }
        call => panic!("no call {call}"),
    }
}

#[test]
fn every_case_on_the_library_and_the_twin() {
    let mut played = 0;
    for line in CASES
        .lines()
        .filter(|line| !line.is_empty() && !line.starts_with('#'))
    {
        let words: Vec<&str> = line.split(' ').collect();
        let equals = words.iter().position(|&word| word == "=").unwrap();
        for (given, output) in play(&words) {
            assert_eq!(u64::from(given), number(words[equals + 1]), "{line}");
            let message = words.get(equals + 2).map_or(vec![], |word| bytes(word));
            assert_eq!(output[..message.len()], message, "{line}");
            assert!(
                output[message.len()..].iter().all(|&byte| byte == 0xAA),
                "{line}"
            );
        }
        played += 1;
    }
    assert!(played > 60, "{played} cases");
}

/// The value of a name in panel.h, `NAME = VALUE` or `#define NAME VALUE`.
fn in_header(name: &str) -> usize {
    let after = HEADER
        .lines()
        .find_map(|line| {
            let line = line.trim_start().trim_start_matches("#define ");
            line.strip_prefix(name)?.strip_prefix(' ')
        })
        .unwrap_or_else(|| panic!("no {name}"));
    let digits: String = after
        .trim_start_matches(['=', ' '])
        .chars()
        .take_while(char::is_ascii_digit)
        .collect();
    digits.parse().unwrap()
}

#[test]
fn the_numbers_of_the_header() {
    let refusals = [
        ("PANEL_NO_ROOM", Refusal::NoRoom),
        ("PANEL_BAD_CUE", Refusal::BadCue),
        ("PANEL_BAD_LENGTH", Refusal::BadLength),
        ("PANEL_BAD_KIND", Refusal::BadKind),
        ("PANEL_BAD_RANGE", Refusal::BadRange),
        ("PANEL_BAD_HOSTS", Refusal::BadHosts),
    ];
    for (name, refusal) in refusals {
        assert_eq!(in_header(name), usize::from(refusal.number()), "{name}");
    }
    assert_eq!(in_header("PANEL_OK"), 0);
    assert_eq!(in_header("PANEL_DATA_LENGTH"), DATA_LENGTH);
    assert_eq!(in_header("PANEL_CUE_LENGTH"), CUE_LENGTH);
    assert_eq!(in_header("PANEL_ROOM"), ROOM);
}

#[test]
fn what_is_written_is_read() {
    let mut out = [0; ROOM];
    let cue = [0; CUE_LENGTH];
    for (sender, number) in [(0, 0), (3, 263), (7, 65535)] {
        let length = write_data(sender, number, 392, &cue, &mut out).unwrap();
        assert_eq!(verdict(&out[..length]), Ok(Datagram::Message));
        assert_eq!(verdict(&out[..length - 1]), Err(Refusal::BadLength));
    }
    assert_eq!(verdict(&[]), Ok(Datagram::Probe));
}

#[test]
fn a_refusal_in_words() {
    let refusal = cue_test(&[0; CUE_LENGTH - 1]).unwrap_err();
    assert_eq!(
        refusal.to_string(),
        "refused 6: an offset or the lamp is out of range, or these are not 24 bytes"
    );
}

/// "Any number of threads may call it at the same time."
#[test]
fn threads_do_not_meet() {
    std::thread::scope(|scope| {
        for sender in 0..8 {
            scope.spawn(move || {
                let mut out = [0; ROOM];
                for number in 0..5000 {
                    let length = write_data(sender, number, number, &[0; CUE_LENGTH], &mut out);
                    assert_eq!(length, Ok(DATA_LENGTH));
                    assert_eq!(out[1], sender as u8);
                    assert_eq!(out[10..12], (number as u16).to_be_bytes());
                    assert_eq!(verdict(&out[..DATA_LENGTH]), Ok(Datagram::Message));
                }
            });
        }
    });
}
