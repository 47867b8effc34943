//! The events, sentence by sentence.

use twin::cue::Cue;
use twin::end::{Answer, Body, End, Event, Reply, Request, Status};
use twin::message;
use twin::reason::{Reason, Why};
use twin::{CLOCK_MAX, DRAWS, OUTPUT_LEN};

use crate::support::*;

const C: Cue = Cue([0; 24]);

fn got(source: u8, number: u16) -> Answer {
    Answer::Got { source, number }
}

fn clash(source: u8, number: u16) -> Answer {
    Answer::Clash { source, number }
}

fn body(end: &End, source: usize, number: usize) -> Body {
    end.sources[source].names[number].body
}

fn span(end: &End, source: usize) -> Option<(u16, u16)> {
    let source = &end.sources[source];
    Some((source.first?, source.last?))
}

/// Host 1's member that got cue 3 of source 0 at clock 0.
fn opened_at_3() -> End {
    let mut end = member(1);
    assert_eq!(hear(&mut end, &data(0, 3, C), 0), got(0, 3));
    end
}

#[test]
fn membership_table() {
    use Status::*;
    let moves = [
        (Event::Join, Idle, Joining),
        (Event::Joined, Joining, Member),
        (Event::Leave, Joining, Leaving),
        (Event::Leave, Member, Leaving),
        (Event::Left, Leaving, Idle),
        (Event::Crash, Idle, Crashed),
        (Event::Crash, Joining, Crashed),
        (Event::Crash, Member, Crashed),
        (Event::Crash, Leaving, Crashed),
    ];
    for from in [Idle, Joining, Member, Leaving, Crashed] {
        for event in [
            Event::Join,
            Event::Joined,
            Event::Leave,
            Event::Left,
            Event::Crash,
        ] {
            let mut end = with_status(2, from);
            let answer = act(&mut end, &event, 5);
            let to = moves
                .iter()
                .find(|(e, f, _)| *e == event && *f == from)
                .map(|(_, _, to)| *to);
            match to {
                Some(to) => assert_eq!((answer, end.status), (Answer::Done, to)),
                None => assert_eq!((answer, end.status), (Answer::Ignored, from)),
            }
            assert_eq!(end.clock, if from == Crashed { 0 } else { 5 });
        }
    }
}

#[test]
fn outside_membership() {
    for status in [
        Status::Idle,
        Status::Joining,
        Status::Leaving,
        Status::Crashed,
    ] {
        for event in [
            Event::Send(C),
            Event::Fire,
            Event::Report,
            Event::Arrival(bytes(&data(0, 0, C))),
        ] {
            let mut end = with_status(1, status);
            let mut after = end.clone();
            assert_eq!(act(&mut end, &event, 9), Answer::Ignored);
            after.clock = if status == Status::Crashed { 0 } else { 9 };
            assert_eq!(end, after);
        }
    }
}

#[test]
fn own_messages_are_ignored() {
    let mut end = member(1);
    let looped = [
        data(1, 0, C),
        rqst(1, 0, 0),
        repl(1, 0, 0, 2, C),
        sess(1, 5, &[(0, 9)], &[(2, 0, 0)]),
    ];
    for message in &looped {
        assert_eq!(hear(&mut end, message, 4), Answer::Ignored);
    }
    let mut fresh = member(1);
    fresh.clock = 4;
    assert_eq!(end, fresh);
}

#[test]
fn leave_and_crash_clear() {
    for event in [Event::Leave, Event::Crash] {
        let mut end = opened_at_3();
        send(&mut end, C, 1);
        send(&mut end, C, 2);
        hear(&mut end, &data(0, 9, C), 3);
        hear(&mut end, &rqst(2, 0, 9), 3);
        hear(&mut end, &repl(2, 0, 3, 4, C), 3);
        hear(&mut end, &sess(5, 1, &[], &[(1, 0, 0)]), 900);
        assert_eq!(end.sources[5].distance, 113);
        assert_eq!(act(&mut end, &event, 901), Answer::Done);
        // "The next own number stays."
        let mut after = idle(1);
        after.next = 2;
        after.clock = 901;
        after.status = end.status;
        assert_eq!(end, after);
    }
}

#[test]
fn own_number_and_first_across_a_leave() {
    // Two faults of earlier links: "The own number restarted after Leave", "First
    // kept through a leave".
    let mut end = opened_at_3();
    send(&mut end, C, 1);
    for event in [Event::Leave, Event::Left, Event::Join, Event::Joined] {
        assert_eq!(act(&mut end, &event, 2), Answer::Done);
    }
    assert_eq!(span(&end, 1), None);
    let sent = read(&send(&mut end, C, 3)).unwrap();
    assert_eq!(sent.names[0].number, 1);
    assert_eq!(span(&end, 1), Some((1, 1)));
    // Number 2 was below the first before the leave; now it opens the source.
    assert_eq!(hear(&mut end, &data(0, 2, C), 4), got(0, 2));
    assert_eq!(span(&end, 0), Some((2, 2)));
}

#[test]
fn send_holds_and_puts_out_data() {
    let mut end = member(6);
    for number in 0..3 {
        let cue = Cue::with_focus(number as i16);
        let sent = read(&send(&mut end, cue, 7)).unwrap();
        let mut expected = data(6, number, cue);
        expected.stamp = 7;
        assert_eq!(sent, expected);
        assert_eq!(body(&end, 6, number.into()), Body::Held);
        assert_eq!(end.sources[6].names[usize::from(number)].cue, cue);
        assert_eq!(span(&end, 6), Some((0, number)));
        assert_eq!(end.next, u32::from(number) + 1);
    }
}

#[test]
fn rounds() {
    // Parameters 9,8,4: F×C1×d and floor(F×C2×d×u/65535), quiet F×C3×d, at every
    // round, with the draw at the cue number and the distance to the source.
    let mut end = opened_at_3();
    end.sources[0].distance = 7;
    let mut draws = [0; DRAWS];
    draws[4] = 25_699;
    let arrival = Event::Arrival(bytes(&data(0, 5, C)));
    let answer = watched(&mut end, &arrival, 1000, &draws, OUTPUT_LEN).0;
    assert_eq!(answer, got(0, 5));
    let mut clock = 1000;
    for k in 1..=18u32 {
        let round = k.min(16);
        let f = 1u64 << (round - 1);
        let expected = Request {
            round: round as u8,
            due: clock + f * 9 * 7 + f * 8 * 7 * 25_699 / 65535,
            quiet_until: clock + f * 4 * 7,
            express: None,
        };
        assert_eq!(request(&end, 0, 4), expected);
        // 56 × 25699 = 1439144; 32768 times that is 719582 × 65535 and 64222 more.
        match round {
            1 => assert_eq!(expected.due, clock + 63 + 21),
            16 => assert_eq!(expected.due, clock + 2_064_384 + 719_582),
            _ => {}
        }
        // The next round is set at the clock of the Fire, here later than due.
        clock = expected.due + 3;
        let answer = watched(&mut end, &Event::Fire, clock, &draws, OUTPUT_LEN).0;
        assert_eq!(answer, Answer::Out(16));
    }
}

/// "the wait's share is floor(.. × u/65535)": at distance 40 a first round's is of 320, a
/// reply's of 160.
#[test]
fn shares_of_a_wait() {
    for (draw, of_round, of_reply) in [
        (0, 0, 0),
        // 320 × 204 = 65280, 320 × 205 = 65600.
        (204, 0, 0),
        (205, 1, 0),
        // 160 × 409 = 65440, 160 × 410 = 65600.
        (409, 1, 0),
        (410, 2, 1),
        // The half of 65535 is no whole number.
        (32767, 159, 79),
        (32768, 160, 80),
        (65534, 319, 159),
        (65535, 320, 160),
    ] {
        let mut end = opened_at_3();
        for message in [data(0, 5, C), rqst(2, 0, 3)] {
            let arrival = Event::Arrival(bytes(&message));
            watched(&mut end, &arrival, 1000, &[draw; DRAWS], OUTPUT_LEN);
        }
        assert_eq!(request(&end, 0, 4).due, 1000 + 360 + of_round, "{draw}");
        let reply = end.sources[0].names[3].reply.unwrap();
        assert_eq!(reply.due, 1000 + 160 + of_reply, "{draw}");
    }
}

#[test]
fn largest_due_stays_below_the_limit() {
    let (refused, mut end) = End::open(1, params([32, 32, 31, 4, 4, 8]));
    assert_eq!(refused, None);
    act(&mut end, &Event::Join, 0);
    act(&mut end, &Event::Joined, 0);
    hear(&mut end, &data(0, 0, C), 0);
    hear(&mut end, &data(0, 2, C), 0);
    end.sources[0].distance = 1000;
    end.sources[0].names[1].body = Body::Waiting(Request {
        round: 16,
        due: 0,
        quiet_until: 0,
        express: None,
    });
    let heard = Event::Arrival(bytes(&rqst(2, 0, 1)));
    let answer = watched(&mut end, &heard, CLOCK_MAX, &[65535; DRAWS], OUTPUT_LEN).0;
    assert_eq!(answer, Answer::Done);
    assert_eq!(
        request(&end, 0, 1),
        Request {
            round: 16,
            due: CLOCK_MAX + 32768 * 64 * 1000,
            quiet_until: CLOCK_MAX + 32768 * 31 * 1000,
            express: None,
        }
    );
}

#[test]
fn data_rules() {
    let mut end = opened_at_3();
    assert_eq!(span(&end, 0), Some((3, 3)));
    // "Below first or held: Ignored."; held with other bytes: P4's Clash.
    let other = Cue::with_focus(5);
    assert_eq!(hear(&mut end, &data(0, 2, other), 1), Answer::Ignored);
    assert_eq!(hear(&mut end, &data(0, 3, C), 1), Answer::Ignored);
    assert_eq!(hear(&mut end, &data(0, 3, other), 1), clash(0, 3));
    assert_eq!(end.sources[0].names[3].cue, C);
    // Just above last: no number between.
    assert_eq!(hear(&mut end, &data(0, 4, other), 2), got(0, 4));
    assert_eq!(end.sources[0].names[4].cue, other);
    // Further above: each between gets round 1.
    assert_eq!(hear(&mut end, &data(0, 7, C), 10), got(0, 7));
    assert_eq!(span(&end, 0), Some((3, 7)));
    for number in [5, 6] {
        assert_eq!(
            request(&end, 0, number),
            Request {
                round: 1,
                due: 10 + 360,
                quiet_until: 10 + 160,
                express: None,
            }
        );
    }
    // "Otherwise hold it, drop its request, Got"; last stays.
    let (answer, out) = watched(
        &mut end,
        &Event::Arrival(bytes(&data(0, 6, other))),
        11,
        &[0; DRAWS],
        OUTPUT_LEN,
    );
    assert_eq!(answer, got(0, 6));
    assert_eq!(out[..24], other.0);
    assert_eq!(body(&end, 0, 6), Body::Held);
    assert_eq!(span(&end, 0), Some((3, 7)));
    assert_eq!(request(&end, 0, 5).round, 1);
}

#[test]
fn data_of_a_held_cue_keeps_a_waiting_reply() {
    let mut end = opened_at_3();
    assert_eq!(hear(&mut end, &rqst(2, 0, 3), 5), Answer::Done);
    let before = end.sources[0];
    assert_eq!(hear(&mut end, &data(0, 3, C), 5), Answer::Ignored);
    assert_eq!(end.sources[0], before);
}

#[test]
fn rqst_first_line() {
    // "no first, below first, or own above last: Ignored."
    let mut end = opened_at_3();
    let before = end.sources;
    assert_eq!(hear(&mut end, &rqst(2, 4, 0), 1), Answer::Ignored);
    assert_eq!(hear(&mut end, &rqst(2, 0, 2), 1), Answer::Ignored);
    assert_eq!(hear(&mut end, &rqst(2, 1, 0), 1), Answer::Ignored);
    assert_eq!(end.sources, before);
    send(&mut end, C, 1);
    let before = end.sources;
    assert_eq!(hear(&mut end, &rqst(2, 1, 1), 1), Answer::Ignored);
    assert_eq!(end.sources, before);
    assert_eq!(hear(&mut end, &rqst(2, 1, 0), 1), Answer::Done);
}

#[test]
fn rqst_of_a_held_cue() {
    let mut end = opened_at_3();
    end.sources[2].distance = 10;
    end.sources[0].names[3].reply_quiet = 100;
    let mut draws = [0; DRAWS];
    draws[3] = 26_000;
    let heard = Event::Arrival(bytes(&rqst(2, 0, 3)));
    let mut at = |clock| watched(&mut end, &heard, clock, &draws, OUTPUT_LEN).0;
    // "clock ≥ reply-quiet": not before, but at that clock.
    assert_eq!(at(99), Answer::Ignored);
    assert_eq!(at(100), Answer::Done);
    // A reply waits.
    assert_eq!(at(5000), Answer::Ignored);
    // 40 × 26000 = 1040000 is 15 × 65535 and 56975 more.
    assert_eq!(
        end.sources[0].names[3].reply,
        Some(Reply {
            due: 100 + 4 * 10 + 15,
            requester: 2,
        })
    );
}

#[test]
fn rqst_above_last() {
    let mut end = opened_at_3();
    assert_eq!(hear(&mut end, &rqst(2, 0, 6), 50), Answer::Done);
    assert_eq!(span(&end, 0), Some((3, 6)));
    for (number, round, f) in [(4, 1, 1), (5, 1, 1), (6, 2, 2)] {
        assert_eq!(
            request(&end, 0, number),
            Request {
                round,
                due: 50 + f * 360,
                quiet_until: 50 + f * 160,
                express: None,
            }
        );
    }
}

#[test]
fn rqst_of_a_waiting_name() {
    // "clock above quiet-until (lemma 4.24 is strict) sets the next round": the
    // fault "Every heard request doubling the round, quiet time or not".
    let mut end = opened_at_3();
    hear(&mut end, &data(0, 5, C), 0);
    assert_eq!(request(&end, 0, 4).quiet_until, 160);
    for clock in [0, 159, 160] {
        assert_eq!(hear(&mut end, &rqst(2, 0, 4), clock), Answer::Ignored);
        assert_eq!(request(&end, 0, 4).round, 1);
    }
    assert_eq!(hear(&mut end, &rqst(2, 0, 4), 161), Answer::Done);
    assert_eq!(
        request(&end, 0, 4),
        Request {
            round: 2,
            due: 161 + 720,
            quiet_until: 161 + 320,
            express: None,
        }
    );
}

#[test]
fn repl_never_opens_a_source() {
    let mut end = member(1);
    assert_eq!(hear(&mut end, &repl(2, 0, 3, 4, C), 1), Answer::Ignored);
    assert_eq!(span(&end, 0), None);
    // Below first, and own without first or above last.
    let mut end = opened_at_3();
    let before = end.sources;
    assert_eq!(hear(&mut end, &repl(2, 0, 2, 4, C), 1), Answer::Ignored);
    assert_eq!(hear(&mut end, &repl(2, 1, 0, 4, C), 1), Answer::Ignored);
    assert_eq!(end.sources, before);
}

#[test]
fn repl_rules() {
    let mut end = opened_at_3();
    end.sources[4].distance = 5;
    // "Not held: as DATA, Got", above last with the numbers between.
    let cue = Cue::with_focus(9);
    assert_eq!(hear(&mut end, &repl(2, 0, 5, 4, cue), 10), got(0, 5));
    assert_eq!(span(&end, 0), Some((3, 5)));
    assert_eq!(request(&end, 0, 4).round, 1);
    assert_eq!(end.sources[0].names[5].cue, cue);
    assert_eq!(end.sources[0].names[5].reply_quiet, 10 + 8 * 5);
    // A waiting name is got too, and its request dropped.
    assert_eq!(hear(&mut end, &repl(0, 0, 4, 1, C), 11), got(0, 4));
    assert_eq!(body(&end, 0, 4), Body::Held);
    // The requester is oneself: "to oneself it is 0".
    assert_eq!(end.sources[0].names[4].reply_quiet, 11);
    // "held: Done. Either way its waiting reply goes": the held cue stays.
    assert_eq!(hear(&mut end, &rqst(6, 0, 4), 11), Answer::Done);
    assert!(end.sources[0].names[4].reply.is_some());
    assert_eq!(hear(&mut end, &repl(2, 0, 4, 4, C), 12), Answer::Done);
    assert_eq!(end.sources[0].names[4].reply, None);
    assert_eq!(end.sources[0].names[4].reply_quiet, 12 + 40);
    assert_eq!(end.sources[0].names[4].cue, C);
    // An own cue's repair by another.
    send(&mut end, C, 12);
    assert_eq!(hear(&mut end, &rqst(6, 1, 0), 12), Answer::Done);
    assert_eq!(hear(&mut end, &repl(2, 1, 0, 4, C), 13), Answer::Done);
    assert_eq!(end.sources[1].names[0].reply, None);
    assert_eq!(end.sources[1].names[0].reply_quiet, 13 + 40);
    assert_eq!(hear(&mut end, &repl(2, 1, 1, 4, cue), 13), Answer::Ignored);
}

/// "Such a message from another end that names a held cue with other bytes gets a new answer, Clash, with the name; apart from the clock
/// nothing changes, reply waits included."
#[test]
fn clashes() {
    let cue = Cue(std::array::from_fn(|place| match place {
        0..10 => 0,
        _ => place as u8,
    }));
    let mut end = member(1);
    assert_eq!(hear(&mut end, &data(0, 3, cue), 1), got(0, 3));
    send(&mut end, cue, 1);
    assert_eq!(hear(&mut end, &rqst(6, 0, 3), 1), Answer::Done);
    assert_eq!(hear(&mut end, &rqst(6, 1, 0), 1), Answer::Done);
    let before = end.clone();
    let after = |clock| End {
        clock,
        ..before.clone()
    };
    // Each of the 24 bytes; the low ones of the fields stay in range.
    for place in [1, 3, 5, 7, 9].into_iter().chain(10..24) {
        let mut other = cue;
        other.0[place] ^= 1;
        let clock = 2 + place as u64;
        let messages = [
            (data(0, 3, other), clash(0, 3)),
            (repl(2, 0, 3, 4, other), clash(0, 3)),
            (repl(0, 0, 3, 1, other), clash(0, 3)),
            (repl(2, 1, 0, 4, other), clash(1, 0)),
            // Looped.
            (repl(1, 0, 3, 4, other), Answer::Ignored),
            (repl(1, 1, 0, 4, other), Answer::Ignored),
            (data(1, 0, other), Answer::Ignored),
        ];
        for (message, answer) in messages {
            let mut end = before.clone();
            let event = Event::Arrival(bytes(&message));
            let none = Answer::Ignored != answer;
            assert_eq!(end.why(&event, clock) == Why::None, none);
            assert_eq!(act(&mut end, &event, clock), answer, "{message:?}");
            assert_eq!(end, after(clock));
        }
    }
    // With equal bytes all is as before.
    assert_eq!(hear(&mut end, &data(0, 3, cue), 9), Answer::Ignored);
    assert_eq!(end, after(9));
    assert_eq!(hear(&mut end, &repl(2, 0, 3, 4, cue), 9), Answer::Done);
    assert_eq!(hear(&mut end, &repl(2, 1, 0, 4, cue), 9), Answer::Done);
    for name in [end.sources[0].names[3], end.sources[1].names[0]] {
        assert_eq!((name.reply, name.reply_quiet), (None, 9 + 320));
    }
}

/// "A message of no bytes is now taken by a member as a Report event at that clock, and by any other status as Ignored."
#[test]
fn probes() {
    let probe = Event::Arrival(vec![]);
    let mut end = opened_at_3();
    send(&mut end, C, 5);
    hear(&mut end, &rqst(2, 0, 9), 6);
    hear(&mut end, &sess(5, 77, &[], &[]), 7);
    for clock in [7, 8, 400, CLOCK_MAX] {
        let (mut probed, mut reported) = (end.clone(), end.clone());
        let bytes = put_out(&mut probed, &probe, clock);
        assert_eq!(bytes, put_out(&mut reported, &Event::Report, clock));
        assert_eq!(probed, reported);
        assert_eq!(probed.why(&probe, clock), Why::None);
        let sent = read(&bytes).unwrap();
        assert_eq!((sent.kind, sent.stamp), (message::SESS, clock));
        assert_eq!((sent.reports.len(), sent.echoes.len()), (2, 1));
    }
    use Status::*;
    for status in [Idle, Joining, Leaving, Crashed] {
        let before = with_status(1, status);
        let mut end = before.clone();
        let reason = match status {
            Crashed => Reason::Crashed,
            _ => Reason::WrongStatus,
        };
        assert_eq!(end.why(&probe, 9), Why::Ignored(reason));
        assert_eq!(act(&mut end, &probe, 9), Answer::Ignored);
        let clock = if status == Crashed { 0 } else { 9 };
        assert_eq!(end, End { clock, ..before });
    }
    // Questions 1 to 5 come first; there is no other.
    let mut end = member(1);
    end.clock = 5;
    let ask = |clock, draws: usize, output| {
        watched(&mut end.clone(), &probe, clock, &vec![0; draws], output).0
    };
    assert_eq!(ask(5, 64, 127), Answer::Refused(1));
    assert_eq!(ask(5, 63, 128), Answer::Refused(2));
    assert_eq!(ask(CLOCK_MAX + 1, 64, 128), Answer::Refused(4));
    assert_eq!(ask(4, 64, 128), Answer::Refused(5));
    assert_eq!(ask(5, 64, 128), Answer::Out(12));
}

#[test]
fn sess_raises_lasts() {
    let mut end = opened_at_3();
    send(&mut end, C, 0);
    // Source 0 rises to 6; own and unopened sources do not.
    let message = sess(2, 1, &[(0, 6), (1, 9), (4, 9)], &[]);
    assert_eq!(hear(&mut end, &message, 20), Answer::Done);
    assert_eq!(span(&end, 0), Some((3, 6)));
    for number in 4..=6 {
        assert_eq!(
            request(&end, 0, number),
            Request {
                round: 1,
                due: 20 + 360,
                quiet_until: 20 + 160,
                express: None,
            }
        );
    }
    assert_eq!(span(&end, 1), Some((0, 0)));
    assert_eq!(span(&end, 4), None);
    // Not above last: nothing moves.
    let names = end.sources[0].names;
    assert_eq!(
        hear(&mut end, &sess(2, 1, &[(0, 6)], &[]), 99),
        Answer::Done
    );
    assert_eq!(
        hear(&mut end, &sess(2, 1, &[(0, 0)], &[]), 99),
        Answer::Done
    );
    assert_eq!(end.sources[0].names, names);
}

#[test]
fn sess_distance_comes_after_the_rounds() {
    // "After that, an echo of oneself": the rounds still use the old distance.
    let mut end = opened_at_3();
    let message = sess(0, 1, &[(0, 4)], &[(1, 0, 0)]);
    assert_eq!(hear(&mut end, &message, 800), Answer::Done);
    assert_eq!(request(&end, 0, 4).due, 800 + 9 * 40);
    assert_eq!(end.sources[0].distance, 100);
}

#[test]
fn sess_echoes() {
    let mut end = member(1);
    // An echo of another host is none of oneself.
    hear(&mut end, &sess(2, 1, &[], &[(3, 0, 0)]), 100);
    assert_eq!(end.sources[2].distance, 40);
    // e below 0: stamp and held ticks together lie after the clock.
    hear(&mut end, &sess(2, 1, &[], &[(1, 60, 41)]), 100);
    assert_eq!(end.sources[2].distance, 40);
    hear(
        &mut end,
        &sess(2, 1, &[], &[(1, CLOCK_MAX, CLOCK_MAX)]),
        100,
    );
    assert_eq!(end.sources[2].distance, 40);
    hear(&mut end, &sess(2, 1, &[], &[(1, 60, 40)]), 100);
    assert_eq!(end.sources[2].distance, 1);
    assert_eq!(end.sources[3].distance, 40);
}

#[test]
fn sess_stamp_is_kept_as_heard_now() {
    let mut end = member(1);
    for (stamp, clock) in [(500, 10), (3, 20)] {
        hear(&mut end, &sess(2, stamp, &[], &[]), clock);
        let heard = end.sources[2].heard.unwrap();
        assert_eq!((heard.stamp, heard.at), (stamp, clock));
    }
}

#[test]
fn report_rules() {
    let mut end = opened_at_3();
    send(&mut end, C, 1);
    hear(&mut end, &rqst(2, 0, 6), 1);
    hear(&mut end, &sess(7, 5, &[], &[]), 100);
    hear(&mut end, &sess(0, 6, &[], &[]), 110);
    let sent = read(&put_out(&mut end, &Event::Report, 150)).unwrap();
    let expected = sess(1, 150, &[(0, 6), (1, 0)], &[(0, 6, 40), (7, 5, 50)]);
    assert_eq!(sent, expected);
    // The longest: eight sources, seven stamps.
    for host in [0, 2, 3, 4, 5, 6, 7] {
        hear(&mut end, &data(host, 60, C), 200);
        hear(&mut end, &sess(host, 1, &[], &[]), 200);
    }
    assert_eq!(put_out(&mut end, &Event::Report, 200).len(), 127);
}

#[test]
fn fire_takes_the_earliest() {
    // Requests for 0,4 and 0,5 and 2,1, replies for 0,3 and 1,0.
    let mut end = opened_at_3();
    send(&mut end, Cue::with_focus(8), 0);
    hear(&mut end, &data(2, 0, C), 0);
    hear(&mut end, &data(2, 2, C), 0);
    hear(&mut end, &data(0, 6, C), 0);
    hear(&mut end, &rqst(3, 0, 3), 0);
    hear(&mut end, &rqst(3, 1, 0), 0);
    let mut set = |source: usize, number: usize, due| {
        let record = &mut end.sources[source].names[number];
        match (&mut record.body, &mut record.reply) {
            (Body::Waiting(request), _) => request.due = due,
            (_, Some(reply)) => reply.due = due,
            _ => panic!("no wait"),
        }
    };
    set(0, 4, 500);
    set(0, 5, 500);
    set(2, 1, 500);
    set(0, 3, 500);
    set(1, 0, 499);
    let mut order = Vec::new();
    assert_eq!(act(&mut end, &Event::Fire, 498), Answer::Nothing);
    for _ in 0..5 {
        let sent = read(&put_out(&mut end, &Event::Fire, 500)).unwrap();
        let name = sent.names[0];
        order.push((sent.kind, name.source, name.number, name.host));
    }
    assert_eq!(
        order,
        [
            (message::REPL, 1, 0, 3),
            (message::RQST, 0, 4, 1),
            (message::RQST, 0, 5, 1),
            (message::RQST, 2, 1, 1),
            (message::REPL, 0, 3, 3),
        ]
    );
    assert_eq!(act(&mut end, &Event::Fire, 500), Answer::Nothing);
}

#[test]
fn fire_of_a_reply() {
    // "A repair written from the latest cue instead of the named one."
    let mut end = member(0);
    let named = Cue::with_focus(1);
    send(&mut end, named, 0);
    send(&mut end, Cue::with_focus(2), 0);
    end.sources[3].distance = 25;
    hear(&mut end, &rqst(3, 0, 0), 0);
    assert_eq!(act(&mut end, &Event::Fire, 99), Answer::Nothing);
    let sent = read(&put_out(&mut end, &Event::Fire, 130)).unwrap();
    let mut expected = repl(0, 0, 0, 3, named);
    expected.stamp = 130;
    assert_eq!(sent, expected);
    assert_eq!(end.sources[0].names[0].reply, None);
    assert_eq!(end.sources[0].names[0].reply_quiet, 130 + 8 * 25);
    assert_eq!(act(&mut end, &Event::Fire, 131), Answer::Nothing);
}
