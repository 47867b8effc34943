//! Cues, the reader and the writer.

use twin::cue::Cue;
use twin::message::{self, Datagram, Echo, Message, Name, Report, DATA, REPL, RQST, SESS};

fn name(source: u8, number: u16, host: u8) -> Name {
    Name {
        source,
        number,
        host,
    }
}

fn message(kind: u8, sender: u8, stamp: u64) -> Message {
    Message {
        kind,
        sender,
        stamp,
        names: vec![],
        cues: vec![],
        reports: vec![],
        echoes: vec![],
    }
}

fn data() -> Message {
    Message {
        names: vec![name(3, 63, 3)],
        cues: vec![Cue::with_focus(-2)],
        ..message(DATA, 3, 5)
    }
}

fn rqst() -> Message {
    Message {
        names: vec![name(0, 1, 1)],
        ..message(RQST, 1, 392)
    }
}

fn repl() -> Message {
    Message {
        names: vec![name(0, 1, 2)],
        cues: vec![Cue::with_focus(2000)],
        ..message(REPL, 1, (1 << 48) - 1)
    }
}

fn sess() -> Message {
    Message {
        reports: (0..8)
            .map(|source| Report {
                source,
                last: 65_528 + u16::from(source),
            })
            .collect(),
        echoes: (1..8)
            .map(|host| Echo {
                host,
                stamp: (1 << 48) - 1,
                held: u64::from(host),
            })
            .collect(),
        ..message(SESS, 0, 0)
    }
}

fn bytes(message: &Message) -> Vec<u8> {
    let mut out = [0; 128];
    let len = message::write(message, &mut out).unwrap();
    out[..len].to_vec()
}

/// The number of the writer's refusal, which changes no byte.
fn refused(message: &Message) -> u8 {
    let mut out = [7; 128];
    let number = message::write(message, &mut out).unwrap_err();
    assert_eq!(out, [7; 128]);
    number
}

/// The reader on what must not be a probe.
fn read(bytes: &[u8]) -> Result<Message, u8> {
    message::read(bytes).map(|read| read.message().expect("no probe"))
}

#[test]
fn cue_fields() {
    assert_eq!(Cue::with_focus(-2).0[..2], [0xFF, 0xFE]);
    for focus in [-2000, -1, 0, 2000, i16::MIN, i16::MAX] {
        assert_eq!(Cue::with_focus(focus).focus(), focus);
    }
    let mut cue = Cue::ZERO;
    cue.0[..10].copy_from_slice(&[0, 1, 0xFF, 0xFE, 0, 3, 0xFF, 0xFC, 3, 0xE8]);
    assert_eq!(
        (cue.focus(), cue.zoom(), cue.sideways(), cue.upright()),
        (1, -2, 3, -4)
    );
    assert_eq!(cue.lamp(), 1000);
}

#[test]
fn cue_range() {
    for at in [0, 2, 4, 6] {
        for (offset, in_range) in [(-2001, false), (-2000, true), (2000, true), (2001, false)] {
            let mut cue = Cue([0xFF; 24]);
            cue.0[8..10].copy_from_slice(&[0, 0]);
            assert!(cue.in_range(), "the 14 other bytes are free");
            cue.0[at..at + 2].copy_from_slice(&i16::to_be_bytes(offset));
            assert_eq!(cue.in_range(), in_range);
        }
    }
    for (lamp, in_range) in [(1000u16, true), (1001, false), (u16::MAX, false)] {
        let mut cue = Cue::ZERO;
        cue.0[8..10].copy_from_slice(&lamp.to_be_bytes());
        assert_eq!(cue.in_range(), in_range);
    }
}

#[test]
fn the_listed_request() {
    let listed = [2, 1, 0, 0, 0, 0, 1, 0x88, 1, 0, 1, 1, 0, 0, 0];
    assert_eq!(read(&listed), Ok(rqst()));
    let written = [18, 1, 0, 0, 0, 0, 1, 0x88, 1, 0, 0, 1, 1, 0, 0, 0];
    assert_eq!(bytes(&rqst()), written);
    assert_eq!(read(&written), Ok(rqst()));
}

#[test]
fn written_is_read() {
    for (message, len) in [
        (data(), 40),
        (rqst(), 16),
        (repl(), 40),
        (sess(), 12 + 24 + 91),
    ] {
        assert_eq!(bytes(&message).len(), len);
        assert_eq!(read(&bytes(&message)), Ok(message));
    }
}

#[test]
fn writing_leaves_the_rest() {
    let mut out = [9; 200];
    assert_eq!(message::write(&rqst(), &mut out), Ok(16));
    assert_eq!(out[16..], [9; 184]);
}

#[test]
fn question_1() {
    let mut out = [7; 127];
    assert_eq!(message::write(&message(0, 9, u64::MAX), &mut out), Err(1));
    assert_eq!(out, [7; 127]);
}

#[test]
fn question_8() {
    // "Number 8 is from then on for lengths 1 to 11 and counts that miss the length".
    assert_eq!(message::read(&[]), Ok(Datagram::Probe));
    for message in [data(), rqst(), repl(), sess()] {
        let whole = bytes(&message);
        for len in 1..whole.len() {
            assert_eq!(read(&whole[..len]), Err(8));
        }
        assert_eq!(read(&[&whole[..], &[0]].concat()), Err(8));
    }
    // A length that the counts miss comes before the bad kind.
    assert_eq!(read(&[9; 12]), Err(8));
    assert_eq!(read(&[0; 12]), Err(9));
}

#[test]
fn question_9() {
    for kind in [0, 5, 255] {
        assert_eq!(refused(&message(kind, 9, 0)), 9);
    }
    for kind in [1, 2, 3, DATA, RQST, REPL] {
        assert_eq!(refused(&message(kind, 9, 0)), 9);
        assert_eq!(refused(&Message { kind, ..sess() }), 9);
    }
    assert_eq!(refused(&message(4, 0, 0)), 9);
    assert_eq!(
        refused(&Message {
            kind: RQST,
            ..data()
        }),
        9
    );
    assert_eq!(
        refused(&Message {
            kind: SESS,
            ..data()
        }),
        9
    );
    assert_eq!(
        refused(&Message {
            kind: DATA,
            ..rqst()
        }),
        9
    );
    assert_eq!(
        refused(&Message {
            names: vec![name(0, 1, 1); 257],
            ..rqst()
        }),
        9
    );
    let mut nine = sess();
    nine.reports.push(Report { source: 8, last: 0 });
    assert_eq!(refused(&nine), 9);
    let mut eight = sess();
    eight.echoes.push(Echo {
        host: 8,
        stamp: 0,
        held: 0,
    });
    assert_eq!(refused(&eight), 9);
}

#[test]
fn question_10() {
    assert_eq!(refused(&message(SESS, 8, 0)), 10);
    assert_eq!(refused(&message(SESS, 0, 1 << 48)), 10);
    for bad in [name(8, 63, 3), name(3, 63, 8)] {
        assert_eq!(
            refused(&Message {
                names: vec![bad],
                ..data()
            }),
            10
        );
    }
    assert_eq!(
        refused(&Message {
            cues: vec![Cue::with_focus(-2001)],
            ..data()
        }),
        10
    );
    assert_eq!(
        refused(&Message {
            reports: vec![Report { source: 8, last: 0 }],
            ..sess()
        }),
        10
    );
    for (host, stamp, held) in [(8, 0, 0), (1, 1 << 48, 0), (1, 0, 1 << 48)] {
        let echoes = vec![Echo { host, stamp, held }];
        assert_eq!(refused(&Message { echoes, ..sess() }), 10);
    }
    let mut wire = bytes(&data());
    wire[14..16].copy_from_slice(&i16::to_be_bytes(-2001));
    assert_eq!(read(&wire), Err(10));
    // Before question 11.
    assert_eq!(
        refused(&Message {
            names: vec![name(3, 63, 9)],
            ..data()
        }),
        10
    );
}

#[test]
fn question_11_hosts() {
    assert_eq!(
        refused(&Message {
            sender: 2,
            ..data()
        }),
        11
    );
    assert_eq!(
        refused(&Message {
            names: vec![name(2, 63, 3)],
            ..data()
        }),
        11
    );
    assert_eq!(
        refused(&Message {
            names: vec![name(3, 63, 2)],
            ..data()
        }),
        11
    );
    assert_eq!(
        refused(&Message {
            names: vec![name(0, 1, 2)],
            ..rqst()
        }),
        11
    );
    assert_eq!(
        refused(&Message {
            names: vec![name(1, 1, 1)],
            ..rqst()
        }),
        11
    );
    assert_eq!(
        refused(&Message {
            names: vec![name(0, 1, 1)],
            ..repl()
        }),
        11
    );
    assert_eq!(
        refused(&Message {
            names: vec![name(2, 1, 2)],
            ..repl()
        }),
        11
    );
    let by_source = Message {
        names: vec![name(1, 1, 2)],
        ..repl()
    };
    assert_eq!(read(&bytes(&by_source)), Ok(by_source));
}

#[test]
fn question_11_order() {
    for sources in [[1, 1], [2, 1]] {
        let reports = sources.map(|source| Report { source, last: 0 }).to_vec();
        assert_eq!(refused(&Message { reports, ..sess() }), 11);
    }
    for hosts in [[1, 1], [2, 1], [0, 1]] {
        let echoes = hosts
            .map(|host| Echo {
                host,
                stamp: 0,
                held: 0,
            })
            .to_vec();
        assert_eq!(refused(&Message { echoes, ..sess() }), 11);
    }
}
