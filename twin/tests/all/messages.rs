//! Byte layouts, the reader's and the writer's refusals, and arbitrary bytes.

use twin::cue::Cue;
use twin::message::{is_old, put_together_old, write, write_probe};
use twin::message::{Datagram, Echo, Message, Name, Report, DATA, REPL, RQST, SESS, XPRS};
use twin::{CLOCK_MAX, OUTPUT_LEN};

use crate::support::*;

fn numbered_cue() -> Cue {
    let mut cue = Cue::with_focus(-2);
    for (at, byte) in cue.0.iter_mut().enumerate().skip(10) {
        *byte = at as u8;
    }
    cue
}

/// A SESS with as much as fits: 8 reports and 7 echoes.
fn full_sess() -> Message {
    let reports: Vec<_> = (0..8).map(|source| (source, 65_535)).collect();
    let echoes: Vec<_> = (0..8)
        .filter(|&host| host != 5)
        .map(|host| (host, CLOCK_MAX, 0x0102_0304_0506))
        .collect();
    sess(5, CLOCK_MAX, &reports, &echoes)
}

fn samples() -> Vec<Message> {
    vec![
        data(6, 64, numbered_cue()),
        rqst(1, 0, 1),
        repl(2, 0, 9, 1, numbered_cue()),
        repl(0, 0, 9, 1, numbered_cue()),
        xprs(2, 0, 9, 3),
        xprs(2, 0, 9, 0),
        ftch(2, 0, 9, 3),
        ftch(2, 0, 65_535, 0),
        late(2, 0, 9, 1, numbered_cue()),
        late(0, 0, 65_535, 1, numbered_cue()),
        sess(3, 0, &[], &[]),
        sess(3, 77, &[(0, 1), (3, 0)], &[(1, 10, 20), (7, 30, 40)]),
        full_sess(),
    ]
}

#[test]
fn data_bytes() {
    let mut message = data(6, 63, numbered_cue());
    message.stamp = 0x0102_0304_0506;
    let mut expected = vec![17, 6, 1, 2, 3, 4, 5, 6];
    expected.extend([1, 6, 0, 63, 6]);
    expected.extend([1, 0xFF, 0xFE, 0, 0, 0, 0, 0, 0, 0, 0]);
    expected.extend(10..24);
    expected.extend([0, 0]);
    assert_eq!(bytes(&message), expected);
    assert_eq!(expected.len(), 40);
}

#[test]
fn rqst_bytes() {
    let mut message = rqst(1, 0, 1);
    message.stamp = 392;
    assert_eq!(
        bytes(&message),
        [18, 1, 0, 0, 0, 0, 1, 0x88, 1, 0, 0, 1, 1, 0, 0, 0]
    );
    // "document 01's RQST case is one of reading"
    let case = [2, 1, 0, 0, 0, 0, 1, 0x88, 1, 0, 1, 1, 0, 0, 0];
    assert_eq!(read(&case), Ok(message));
}

#[test]
fn repl_bytes() {
    let mut expected = vec![19, 2, 0, 0, 0, 0, 0, 0];
    expected.extend([1, 0, 0x12, 0x34, 1]);
    expected.push(1);
    expected.extend(numbered_cue().0);
    expected.extend([0, 0]);
    assert_eq!(bytes(&repl(2, 0, 0x1234, 1, numbered_cue())), expected);
}

#[test]
fn sess_bytes() {
    let message = sess(
        3,
        77,
        &[(0, 1), (3, 0x1234)],
        &[(1, 10, 300), (7, CLOCK_MAX, 0)],
    );
    let mut expected = vec![20, 3, 0, 0, 0, 0, 0, 77];
    expected.extend([0, 0]);
    expected.extend([2, 0, 0, 1, 3, 0x12, 0x34]);
    expected.extend([2]);
    expected.extend([1, 0, 0, 0, 0, 0, 10, 0, 0, 0, 0, 1, 44]);
    expected.extend([7, 255, 255, 255, 255, 255, 255, 0, 0, 0, 0, 0, 0]);
    assert_eq!(bytes(&message), expected);
    assert_eq!(bytes(&full_sess()).len(), 127);
}

#[test]
fn written_reads_back() {
    for message in samples() {
        assert_eq!(read(&bytes(&message)), Ok(message));
    }
}

#[test]
fn question_8() {
    for message in samples() {
        let good = bytes(&message);
        for length in 1..good.len() {
            assert_eq!(read(&good[..length]), Err(8));
        }
        let mut longer = good.clone();
        longer.push(0);
        assert_eq!(read(&longer), Err(8));
    }
    // Twelve bytes are enough for 8, whatever the kind.
    assert_eq!(read(&[0; 11]), Err(8));
    assert_eq!(read(&[0; 12]), Err(9));
    // A count that promises more than there is, in each section.
    for at in 8..12 {
        let mut short = [0; 12];
        short[at] = 255;
        assert_eq!(read(&short), Err(8));
    }
    // All counts at 255 and a length to match: the counts account for it, "kinds 1 to 4 by the old sizes and every other kind byte by
    // the new".
    for (kind, name, report) in [(4, 3, 2), (20, 4, 3), (5, 4, 3), (255, 4, 3)] {
        let mut huge = vec![kind; 8];
        for size in [name, 24, report, 13] {
            huge.push(255);
            huge.extend(vec![0; 255 * size]);
        }
        assert_eq!(read(&huge), Err(9));
        huge.pop();
        assert_eq!(read(&huge), Err(8));
    }
}

/// "the old kinds are still read, numbers to 63, as the same meanings and no longer written".
#[test]
fn old_kinds() {
    // Kinds 21 to 23 are for no old one.
    for message in samples().into_iter().filter(|m| m.kind < XPRS) {
        let small = changed(&message, |m| {
            m.names.iter_mut().for_each(|name| name.number %= 64);
            m.reports.iter_mut().for_each(|report| report.last %= 64);
        });
        let old = changed(&small, |m| m.kind -= 16);
        assert_eq!(read(&put_together_old(&old)), Ok(small.clone()));
        assert_eq!(write(&old, &mut [FILL; OUTPUT_LEN]), Err(9));
        // The other sizes, where it has a name or a report.
        if !small.names.is_empty() || !small.reports.is_empty() {
            assert_eq!(read(&lay(&old)), Err(8));
            assert_eq!(read(&put_together_old(&small)), Err(8));
        }
        for number in [64, 65, 128, 255] {
            let high = changed(&old, |m| {
                m.names.iter_mut().for_each(|name| name.number = number);
                m.reports.iter_mut().for_each(|report| report.last = number);
            });
            let refused = high.names.len() + high.reports.len() > 0;
            let answer = read(&put_together_old(&high));
            assert_eq!(answer.err(), refused.then_some(10));
        }
    }
    for kind in [0, 5, 6, 7, 16, 24, 255] {
        let message = changed(&rqst(1, 0, 1), |m| m.kind = kind);
        assert_eq!(read(&put_together_old(&message)), Err(8));
        assert_eq!(read(&lay(&message)), Err(9));
    }
}

/// "Cue numbers become 0..65535, two bytes in names and reports".
#[test]
fn every_number_is_read_back() {
    for number in [0, 1, 63, 64, 255, 256, 32_768, 65_534, 65_535] {
        let message = data(6, number, numbered_cue());
        assert_eq!(read(&bytes(&message)), Ok(message));
        let message = sess(3, 1, &[(0, number), (7, number)], &[]);
        assert_eq!(read(&bytes(&message)), Ok(message));
    }
}

/// Reader and writer must agree on questions 9, 10 and 11; the writer then keeps
/// the output. `bytes` gives no bytes for such a message, so they are laid here.
fn refused_by_both(message: &Message, number: u8) {
    let mut out = [FILL; OUTPUT_LEN];
    assert_eq!(write(message, &mut out), Err(number), "{message:?}");
    assert_eq!(out, [FILL; OUTPUT_LEN]);
    assert_eq!(read(&lay(message)), Err(number), "{message:?}");
}

fn lay(message: &Message) -> Vec<u8> {
    let mut bytes = vec![message.kind, message.sender];
    bytes.extend(&message.stamp.to_be_bytes()[2..]);
    bytes.push(message.names.len() as u8);
    for n in &message.names {
        bytes.push(n.source);
        bytes.extend(n.number.to_be_bytes());
        bytes.push(n.host);
    }
    bytes.push(message.cues.len() as u8);
    for cue in &message.cues {
        bytes.extend(cue.0);
    }
    bytes.push(message.reports.len() as u8);
    for r in &message.reports {
        bytes.push(r.source);
        bytes.extend(r.last.to_be_bytes());
    }
    bytes.push(message.echoes.len() as u8);
    for e in &message.echoes {
        bytes.push(e.host);
        bytes.extend(&e.stamp.to_be_bytes()[2..]);
        bytes.extend(&e.held.to_be_bytes()[2..]);
    }
    bytes
}

fn changed(message: &Message, change: impl FnOnce(&mut Message)) -> Message {
    let mut message = message.clone();
    change(&mut message);
    message
}

#[test]
fn question_9() {
    let name = Name {
        source: 0,
        number: 0,
        host: 1,
    };
    let report = Report { source: 7, last: 0 };
    let echo = Echo {
        host: 7,
        stamp: 0,
        held: 0,
    };
    for message in samples() {
        for kind in [0, 5, 24, 255] {
            refused_by_both(&changed(&message, |m| m.kind = kind), 9);
        }
        // Another name or another cue fits no kind.
        refused_by_both(&changed(&message, |m| m.names.extend([name, name])), 9);
        refused_by_both(&changed(&message, |m| m.cues.extend([Cue::ZERO; 2])), 9);
    }
    for message in &samples()[..6] {
        refused_by_both(&changed(message, |m| m.names.clear()), 9);
        refused_by_both(&changed(message, |m| m.reports.push(report)), 9);
        refused_by_both(&changed(message, |m| m.echoes.push(echo)), 9);
        // A SESS with names, a request with a cue, a repair without.
        refused_by_both(&changed(message, |m| m.kind = SESS), 9);
        let asks = [RQST, XPRS].contains(&message.kind);
        let other = if asks { REPL } else { RQST };
        refused_by_both(&changed(message, |m| m.kind = other), 9);
    }
    refused_by_both(&changed(&full_sess(), |m| m.reports.push(report)), 9);
    refused_by_both(&changed(&full_sess(), |m| m.echoes.push(echo)), 9);
    refused_by_both(&changed(&samples()[6], |m| m.kind = DATA), 9);
}

#[test]
fn question_10() {
    for message in samples() {
        refused_by_both(&changed(&message, |m| m.sender = 8), 10);
    }
    for message in &samples()[..6] {
        refused_by_both(&changed(message, |m| m.names[0].source = 8), 10);
        refused_by_both(&changed(message, |m| m.names[0].host = 255), 10);
    }
    for message in [data(0, 0, Cue::ZERO), repl(1, 0, 0, 2, Cue::ZERO)] {
        for at in [0, 2, 4, 6] {
            let high = changed(&message, |m| {
                m.cues[0].0[at..at + 2].copy_from_slice(&2001i16.to_be_bytes())
            });
            refused_by_both(&high, 10);
        }
        let bright = changed(&message, |m| {
            m.cues[0].0[8..10].copy_from_slice(&1001u16.to_be_bytes())
        });
        refused_by_both(&bright, 10);
    }
    let last = full_sess().echoes.len() - 1;
    refused_by_both(&changed(&full_sess(), |m| m.reports[7].source = 8), 10);
    refused_by_both(&changed(&full_sess(), |m| m.echoes[last].host = 8), 10);

    // "stamps and held ticks below 2^48": six bytes cannot hold more, so only the
    // writer can be asked this.
    let mut out = [FILL; OUTPUT_LEN];
    for beyond in [CLOCK_MAX + 1, u64::MAX] {
        for message in [
            changed(&rqst(1, 0, 1), |m| m.stamp = beyond),
            changed(&full_sess(), |m| m.echoes[0].stamp = beyond),
            changed(&full_sess(), |m| m.echoes[6].held = beyond),
        ] {
            assert_eq!(write(&message, &mut out), Err(10));
            assert_eq!(out, [FILL; OUTPUT_LEN]);
        }
    }
}

#[test]
fn question_11() {
    // DATA: "the source, also the sender".
    refused_by_both(&changed(&data(0, 0, Cue::ZERO), |m| m.sender = 1), 11);
    refused_by_both(
        &changed(&data(0, 0, Cue::ZERO), |m| m.names[0].host = 1),
        11,
    );
    refused_by_both(
        &changed(&data(0, 0, Cue::ZERO), |m| m.names[0].source = 1),
        11,
    );
    // RQST: "the sender, not the source".
    refused_by_both(&changed(&rqst(1, 0, 1), |m| m.names[0].host = 2), 11);
    refused_by_both(&rqst(1, 1, 1), 11);
    // REPL: "the requester, neither sender nor source".
    refused_by_both(&repl(1, 0, 1, 1, Cue::ZERO), 11);
    refused_by_both(&repl(1, 0, 1, 0, Cue::ZERO), 11);
    refused_by_both(&repl(1, 1, 1, 1, Cue::ZERO), 11);
    // Kind 21: "host and source differ from its own sender, else 11" (document 02, P8).
    refused_by_both(&xprs(1, 0, 1, 1), 11);
    refused_by_both(&xprs(1, 1, 1, 2), 11);
    refused_by_both(&xprs(1, 1, 1, 1), 11);
    // "Reports rise strictly by source, echoes by host; no echo names the sender."
    refused_by_both(&sess(3, 0, &[(2, 0), (2, 1)], &[]), 11);
    refused_by_both(&sess(3, 0, &[(2, 0), (1, 1)], &[]), 11);
    refused_by_both(&sess(3, 0, &[], &[(2, 0, 0), (2, 0, 0)]), 11);
    refused_by_both(&sess(3, 0, &[], &[(2, 0, 0), (1, 0, 0)]), 11);
    refused_by_both(&sess(3, 0, &[], &[(3, 0, 0)]), 11);
}

#[test]
fn first_no_decides() {
    // Wrong in everything: the lowest question that says no is named.
    let mut message = sess(9, 0, &[(2, 99), (1, 0)], &[(9, 0, 0)]);
    refused_by_both(&message, 10);
    message.kind = 0;
    refused_by_both(&message, 9);
    let mut bytes = lay(&message);
    bytes.push(0);
    assert_eq!(read(&bytes), Err(8));
    let mut out = [FILL; OUTPUT_LEN - 1];
    assert_eq!(write(&message, &mut out), Err(1));
}

#[test]
fn question_1_of_the_writer() {
    for message in samples() {
        for length in [0, 12, 40, 119, 127] {
            let mut out = vec![FILL; length];
            assert_eq!(write(&message, &mut out), Err(1));
            assert_eq!(out, vec![FILL; length]);
        }
        let mut out = [FILL; 300];
        let length = write(&message, &mut out).unwrap();
        assert!(out[length..].iter().all(|&byte| byte == FILL));
    }
}

/// "The reader alone answers "probe" for it, and the writer writes it for "probe"."
#[test]
fn probes() {
    assert_eq!(twin::message::read(&[]), Ok(Datagram::Probe));
    assert_eq!(read(&[4]), Err(8));
    assert_eq!(read(&[4; 11]), Err(8));
    for length in [0, 1, 127] {
        let mut out = vec![FILL; length];
        assert_eq!(write_probe(&mut out), Err(1));
        assert_eq!(out, vec![FILL; length]);
    }
    let mut out = [FILL; OUTPUT_LEN];
    assert_eq!(write_probe(&mut out), Ok(0));
    assert_eq!(out, [FILL; OUTPUT_LEN]);
}

#[test]
fn arbitrary_bytes() {
    // The reader never panics, and what it accepts writes back as it was.
    let mut rng = Rng(1);
    let samples: Vec<_> = samples().iter().map(bytes).collect();
    let mut accepted = 0;
    for round in 0..60_000 {
        let mut candidate = if round % 3 == 0 {
            let length = rng.below(200) as usize;
            rng.bytes(length)
        } else {
            samples[rng.below(samples.len() as u64) as usize].clone()
        };
        for _ in 0..rng.below(4) {
            if candidate.is_empty() {
                break;
            }
            let at = rng.below(candidate.len() as u64) as usize;
            match rng.below(4) {
                0 => candidate[at] = rng.byte(),
                1 if at == 0 => candidate[0] = rng.small(4) + 1,
                1 => candidate[at] = rng.small(9),
                2 => candidate.truncate(at),
                _ => candidate.insert(at, rng.small(9)),
            }
        }
        match twin::message::read(&candidate) {
            Ok(Datagram::Message(message)) => {
                accepted += 1;
                let again = bytes(&message);
                if is_old(candidate[0]) {
                    assert_eq!(read(&again), Ok(message));
                } else {
                    assert_eq!(again, candidate);
                }
            }
            Ok(Datagram::Probe) => assert!(candidate.is_empty()),
            Err(number) => assert!((8..=11).contains(&number) && !candidate.is_empty()),
        }
    }
    assert!(accepted > 1000);
}
