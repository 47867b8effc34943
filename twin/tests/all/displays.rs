//! Listening displays: document 02, P11, and the program `foyer` (docs/DISPLAYS.md).

use twin::cue::Cue;
use twin::end::Answer;
use twin::foyer;
use twin::message::{self, Message, Name, ANNC};
use twin::screen::{Losses, Screen, Window};
use twin::{CLOCK_MAX, OUTPUT_LEN};

use crate::support::*;

const IGNORED: (Answer, Losses) = (Answer::Ignored, Losses::NONE);
const DONE: (Answer, Losses) = (Answer::Done, Losses::NONE);

/// The display of host 2 that follows host 0.
fn display() -> Screen {
    let (refused, screen) = Screen::open(2, 0);
    assert_eq!(refused, None);
    screen
}

/// One that has these trail, lead and receptions.
fn with(trail: u16, lead: u16, received: u64) -> Screen {
    Screen {
        window: Some(Window {
            trail,
            lead,
            received,
        }),
        ..display()
    }
}

fn announced(sender: u8, trail: u16, lead: u16) -> Message {
    let names = [trail, lead].map(|number| Name {
        source: sender,
        number,
        host: sender,
    });
    Message {
        kind: ANNC,
        names: names.to_vec(),
        ..sess(sender, 0, &[], &[])
    }
}

/// Hears at its own clock; only the bytes of a Got change.
fn heard(screen: &mut Screen, message: &Message) -> (Answer, Losses) {
    let mut out = [FILL; OUTPUT_LEN];
    let clock = screen.clock;
    let said = screen.hear(clock, &bytes(message), &mut out);
    let wrote = match said.0 {
        Answer::Got { .. } => {
            assert_eq!(out[..24], message.cues[0].0);
            24
        }
        _ => 0,
    };
    assert!(out[wrote..].iter().all(|&byte| byte == FILL));
    assert!(screen.sound());
    said
}

fn got(number: u16) -> (Answer, Losses) {
    let source = 0;
    (Answer::Got { source, number }, Losses::NONE)
}

fn got_losing(number: u16, set: u64, span: Option<(u16, u16)>) -> (Answer, Losses) {
    (got(number).0, Losses { set, span })
}

fn cue(number: u16) -> Message {
    data(0, number, Cue::with_focus(7))
}

/// "opened at clock 0 for two different hosts below 8, its own and its sender's, else 12"
#[test]
fn opening() {
    for own in 0..=9 {
        for sender in 0..=9 {
            let (refused, screen) = Screen::open(own, sender);
            let good = own < 8 && sender < 8 && own != sender;
            assert_eq!(refused, (!good).then_some(12));
            let (own, sender) = if good { (own, sender) } else { (0, 1) };
            let expected = Screen {
                own,
                sender,
                clock: 0,
                window: None,
            };
            assert_eq!(screen, expected);
            assert!(screen.sound());
        }
    }
}

/// "It starts at its sender's first DATA, trail and lead both that number"; before, "all else Ignored".
#[test]
fn it_starts_at_its_senders_first_data() {
    let mut screen = display();
    let repair = repl(1, 0, 9, 2, Cue::ZERO);
    for other in [
        repair,
        announced(0, 5, 9),
        data(1, 4, Cue::ZERO),
        rqst(1, 0, 3),
        sess(0, 0, &[(0, 9)], &[]),
    ] {
        assert_eq!(heard(&mut screen, &other), IGNORED);
        assert_eq!(screen, display());
    }
    assert_eq!(screen.step(0, &mut [0; OUTPUT_LEN]), Answer::Nothing);
    assert_eq!(heard(&mut screen, &cue(9)), got(9));
    assert_eq!(screen, with(9, 9, 1));
    assert_eq!(heard(&mut screen, &cue(9)), IGNORED);
    assert_eq!(heard(&mut screen, &cue(8)), IGNORED);
    assert_eq!(screen, with(9, 9, 1));
}

/// "a later cue n counts as trail n−63 and lead n"
#[test]
fn a_later_cue_moves_trail_and_lead() {
    let mut screen = with(9, 9, 1);
    // 72 is 9 + 63: nothing is passed.
    assert_eq!(heard(&mut screen, &cue(72)), got(72));
    assert_eq!(screen, with(9, 72, 1 | 1 << 63));
    // 9 was received: passed and not lost.
    assert_eq!(heard(&mut screen, &cue(73)), got(73));
    assert_eq!(screen, with(10, 73, 1 << 62 | 1 << 63));
    // 10 and 11 were not: bits 0 and 1 from the old trail.
    assert_eq!(heard(&mut screen, &cue(75)), got_losing(75, 3, None));
    assert_eq!(screen, with(12, 75, 1 << 60 | 1 << 61 | 1 << 63));
    // A repair counts the same, whoever sent it, for whomever.
    let repair = repl(3, 0, 76, 4, Cue::ZERO);
    assert_eq!(heard(&mut screen, &repair), got_losing(76, 1, None));
    let mut repair = repl(0, 0, 14, 4, Cue::ZERO);
    assert_eq!(heard(&mut screen, &repair), got(14));
    assert_eq!(heard(&mut screen, &repair), IGNORED);
    repair.names[0].number = 12;
    assert_eq!(heard(&mut screen, &repair), IGNORED);
}

/// "that call reports it (a 64-bit set up from the old trail, and a span for those above the old lead)"
#[test]
fn losses() {
    // Set and span: 5 and 7 of 5..8, and 9..12.
    let mut screen = with(5, 8, 0b1010);
    assert_eq!(
        heard(&mut screen, &cue(76)),
        got_losing(76, 0b101, Some((9, 12)))
    );
    assert_eq!(screen, with(13, 76, 1 << 63));
    // All 64 passed, none above the old lead.
    let mut screen = with(0, 63, 1);
    assert_eq!(
        heard(&mut screen, &cue(127)),
        got_losing(127, u64::MAX - 1, None)
    );
    assert_eq!(screen, with(64, 127, 1 << 63));
    // One more: 64 itself is above the old lead.
    let mut screen = with(0, 63, u64::MAX);
    assert_eq!(
        heard(&mut screen, &cue(128)),
        got_losing(128, 0, Some((64, 64)))
    );
    let mut screen = with(0, 0, 1);
    assert_eq!(
        heard(&mut screen, &cue(65_535)),
        got_losing(65_535, 0, Some((1, 65_471)))
    );
    // By kind 24, which receives nothing.
    let mut screen = with(0, 3, 1);
    let losses = Losses {
        set: 0b1110,
        span: None,
    };
    assert_eq!(
        heard(&mut screen, &announced(0, 4, 4)),
        (Answer::Done, losses)
    );
    assert_eq!(screen, with(4, 4, 0));
    let losses = Losses {
        set: 1,
        span: Some((5, 5)),
    };
    assert_eq!(
        heard(&mut screen, &announced(0, 6, 69)),
        (Answer::Done, losses)
    );
    assert_eq!(screen, with(6, 69, 0));
}

/// "Values lower than it has heard [...] it passes over"
#[test]
fn lower_values_are_passed_over() {
    let start = with(10, 20, 1);
    for (trail, lead, left) in [
        (0, 9, start),
        (9, 20, start),
        (10, 19, start),
        (9, 21, with(10, 21, 1)),
        (0, 63, with(10, 63, 1)),
    ] {
        let mut screen = start;
        assert_eq!(heard(&mut screen, &announced(0, trail, lead)), DONE);
        assert_eq!(screen, left);
    }
    // Trail rises, lead stays: 11 is lost, 10 was received.
    let mut screen = start;
    let losses = Losses {
        set: 0b10,
        span: None,
    };
    assert_eq!(
        heard(&mut screen, &announced(0, 12, 13)),
        (Answer::Done, losses)
    );
    assert_eq!(screen, with(12, 20, 0));
    assert_eq!(heard(&mut screen, &announced(1, 30, 40)), IGNORED);
    assert_eq!(screen, with(12, 20, 0));
}

/// "A step puts out RQST of the lowest missing number, or gives Nothing"
#[test]
fn steps() {
    for (screen, lowest) in [
        (with(5, 8, 0b1011), Some(7)),
        (with(5, 8, 0b1111), None),
        (with(5, 8, 0), Some(5)),
        (with(0, 63, u64::MAX >> 1), Some(63)),
        (with(65_472, 65_535, u64::MAX), None),
        (display(), None),
    ] {
        let mut after = screen;
        let mut out = [FILL; OUTPUT_LEN];
        let answer = after.step(392, &mut out);
        let expected = Screen {
            clock: 392,
            ..screen
        };
        assert_eq!(after, expected);
        let wrote = match lowest {
            Some(number) => {
                assert_eq!(answer, Answer::Out(16));
                let request = Message {
                    stamp: 392,
                    ..rqst(2, 0, number)
                };
                assert_eq!(read(&out[..16]), Ok(request));
                16
            }
            None => {
                assert_eq!(answer, Answer::Nothing);
                0
            }
        };
        assert!(out[wrote..].iter().all(|&byte| byte == FILL));
    }
}

/// "hear and step set its clock and ask questions 1 and 3 to 5, hear 8 to 11 too."
#[test]
fn questions() {
    let good = bytes(&cue(5));
    let refusal = |screen: Screen, clock: u64, room: usize, bytes: &[u8]| {
        let mut out = vec![FILL; room];
        let mut after = screen;
        let heard = after.hear(clock, bytes, &mut out).0;
        if let Answer::Refused(_) = heard {
            assert_eq!(after, screen);
        }
        assert!(out[24.min(room)..].iter().all(|&byte| byte == FILL));
        heard
    };
    let unsound = with(5, 4, 0);
    let at_ten = Screen {
        clock: 10,
        ..display()
    };
    let mut long = good.clone();
    long.push(0);
    let mut unknown = good.clone();
    unknown[0] = 25;
    let mut ranged = good.clone();
    ranged[1] = 8;
    let mut placed = good.clone();
    placed[1] = 1;
    for (screen, clock, room, bytes, number) in [
        (unsound, 1 << 48, 127, &long, 1),
        (unsound, 1 << 48, 128, &long, 3),
        (at_ten, 1 << 48, 128, &long, 4),
        (at_ten, 9, 128, &long, 5),
        (at_ten, 10, 128, &long, 8),
        (at_ten, 10, 128, &unknown, 9),
        (at_ten, 10, 128, &ranged, 10),
        (at_ten, 10, 128, &placed, 11),
    ] {
        let answer = refusal(screen, clock, room, bytes);
        assert_eq!(answer, Answer::Refused(number));
        let mut after = screen;
        let stepped = after.step(clock, &mut vec![FILL; room]);
        if number <= 5 {
            assert_eq!(stepped, Answer::Refused(number));
            assert_eq!(after, screen);
        } else {
            assert_eq!(stepped, Answer::Nothing);
        }
    }
    let answer = refusal(at_ten, CLOCK_MAX, 200, &good);
    assert_eq!(answer, got(5).0);
    // A probe is none of what a display takes.
    let mut screen = with(5, 8, 0);
    assert_eq!(screen.hear(9, &[], &mut [0; OUTPUT_LEN]), IGNORED);
    let expected = Screen {
        clock: 9,
        ..with(5, 8, 0)
    };
    assert_eq!(screen, expected);
}

/// "A sound one has neither trail nor lead, or lead as above, and receptions only between them."
#[test]
fn soundness() {
    for (trail, lead, received, sound) in [
        (5, 5, 0, true),
        (5, 5, 1, true),
        (5, 5, 2, false),
        (5, 4, 0, false),
        (5, 68, u64::MAX, true),
        (5, 69, 0, false),
        (5, 67, u64::MAX >> 1, true),
        (5, 67, 1 << 63, false),
        (65_472, 65_535, u64::MAX, true),
        (65_471, 65_535, 0, false),
        (65_535, 65_535, 1, true),
    ] {
        assert_eq!(with(trail, lead, received).sound(), sound);
    }
    let good = display();
    for (screen, sound) in [
        (Screen { own: 7, ..good }, true),
        (Screen { own: 8, ..good }, false),
        (Screen { own: 0, ..good }, false),
        (Screen { sender: 8, ..good }, false),
        (Screen { sender: 2, ..good }, false),
        (
            Screen {
                clock: CLOCK_MAX,
                ..good
            },
            true,
        ),
        (
            Screen {
                clock: CLOCK_MAX + 1,
                ..good
            },
            false,
        ),
    ] {
        assert_eq!(screen.sound(), sound);
    }
}

fn played(script: &str) -> String {
    let mut printed = Vec::new();
    foyer::play(script.as_bytes(), &mut printed).expect("a vector takes all");
    String::from_utf8(printed).expect("what is printed is text")
}

/// The page's own example of losses, with 5 and 7 of 5..8 lost and 9..12; here 9..12 take a cue 76.
#[test]
fn foyer_prints_losses_and_states() {
    let mut bytes = message::put_together(&cue(76));
    bytes[1] = 0;
    let hex: String = bytes.iter().map(|byte| format!("{byte:02X}")).collect();
    let script = format!(
        "2 show\n2 open 7 0\n2 set clock 40\n2 set window 5 8 10\n2 hear 40 bytes {hex}\n2 show\n2 step 41\n2 show\n2 open 3 3\n2 show\n"
    );
    let expected = "\
2 own 2 sender 0 clock 0 unstarted; none
2 opened
2 40 got 0 76 7; lost 5 7 9..12
2 own 7 sender 0 clock 40 trail 13 lead 76 set 9223372036854775808; 000700000000000000000000000000000000000000000000
2 41 out 0
2 own 7 sender 0 clock 41 trail 13 lead 76 set 9223372036854775808; 12070000000000290100000D07000000
2 refused 12
2 own 0 sender 1 clock 0 unstarted; none
";
    assert_eq!(played(&script), expected);
}

/// Each is bad: malformed, a number out of its range, an unknown message number.
#[test]
fn foyer_bad_lines() {
    for line in [
        "2 join 0",
        "3 join 0",
        "0 step 0",
        "0 show",
        "0 hear 0 bytes none",
        "0 hear 0 0",
        "2 hear 0 0",
        "2 hear 0 bytes",
        "2 hear 0 bytes 0",
        "2 hear 0 bytes 0g",
        "2 hear 0 bytes ab",
        "2 step",
        "2 step 00",
        "2 step 18446744073709551616",
        "2 open 256 0",
        "2 open 0",
        "2 set own 256",
        "2 set window 65536 0 0",
        "2 set window 0 65536 0",
        "2 set window 0 0 18446744073709551616",
        "2 set started",
        "2 set window 0 0",
        "room 201",
        "room",
        "0 send 0 32768",
        "0 send 0 -0",
        "0 fetch 0 0 0",
        " 2 show",
        "2 show ",
        "2  show",
        "2 show\r",
    ] {
        let said = played(&format!("# a remark\n\n{line}\n2 show\n"));
        assert_eq!(said, "bad\n", "{line}");
    }
    assert_eq!(played("2 open 1 0"), "bad\n");
    let remark = format!("#{}", "x".repeat(599));
    assert_eq!(played(&format!("{remark}\n2 open 1 0\n")), "2 opened\n");
    assert_eq!(played(&format!("{remark}x\n2 open 1 0\n")), "bad\n");
    let most = format!("2 hear 0 bytes {}\n", "00".repeat(256));
    assert_eq!(played(&most), "2 0 refused 8\n");
    let more = format!("2 hear 0 bytes {}\n", "00".repeat(257));
    assert_eq!(played(&more), "bad\n");
}

/// "NUMBER is that of one that was put out before, and the last 64 are kept."
#[test]
fn foyer_keeps_the_last_messages() {
    let mut script = String::from("0 join 0\n0 joined 0\n");
    for clock in 0..65 {
        script += &format!("0 send {clock} 1\n");
    }
    let said = played(&format!("{script}2 hear 0 1\n2 hear 0 64\n2 hear 0 0\n"));
    assert!(said.ends_with("0 64 out 64\n2 0 got 0 1 1\n2 0 got 0 64 1\nbad\n"));
    let said = played(&format!("{script}2 hear 0 65\n"));
    assert!(said.ends_with("0 64 out 64\nbad\n"));
}

/// The messages of the ends: an end hears the display's RQST as any other's, and repairs for it.
#[test]
fn foyer_repairs() {
    let script = "0 join 0\n0 joined 0\n0 send 1 -2\n0 send 2 5\n0 send 3 6\n2 hear 4 0\n2 hear 5 2\n2 step 6\n0 hear 7 3\n0 fire 167\n2 hear 170 4\n2 step 171\n0 announce 172\n2 hear 173 5\n2 show\n";
    let expected = "0 0 done\n0 0 done\n0 1 out 0\n0 2 out 1\n0 3 out 2\n2 4 got 0 0 -2\n2 5 got 0 2 6\n2 6 out 3\n0 7 done\n0 167 out 4\n2 170 got 0 1 5\n2 171 nothing\n0 172 out 5\n2 173 done\n2 own 2 sender 0 clock 173 trail 0 lead 2 set 7; none\n";
    assert_eq!(played(script), expected);
}
