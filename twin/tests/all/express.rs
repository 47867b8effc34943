//! Express repair: document 02, P8.

use twin::cue::Cue;
use twin::end::{Answer, Body, End, Event, Pair, Params, Reply};
use twin::message::XPRS;
use twin::{CLOCK_MAX, DRAWS, OUTPUT_LEN};

use crate::support::*;

const C: Cue = Cue::ZERO;

fn got(source: u8, number: u16) -> Answer {
    Answer::Got { source, number }
}

fn pair(requester: u8, sender: u8, number: u16) -> Option<Pair> {
    Some(Pair {
        requester,
        sender,
        number,
    })
}

/// A member of host 2 with E 100 that holds 0,3.
fn plain() -> End {
    let mut end = member(2);
    end.params.e = 100;
    assert_eq!(hear(&mut end, &data(0, 3, C), 0), got(0, 3));
    end
}

/// The same after a repair of 0,4 by host 1 for host 2.
fn paired() -> End {
    let mut end = plain();
    assert_eq!(hear(&mut end, &repl(1, 0, 4, 2, C), 0), got(0, 4));
    assert_eq!(end.sources[0].pair, pair(2, 1, 4));
    end
}

/// The same after 0,6 came at clock 10, so that 0,5 waits with an express wait due at 110.
fn expressed() -> End {
    let mut end = paired();
    assert_eq!(hear(&mut end, &data(0, 6, C), 10), got(0, 6));
    assert_eq!(request(&end, 0, 5).express, Some(110));
    end
}

#[test]
fn which_pair_is_kept() {
    // "the latest REPL answered Got or Done that named a number at least as high as the kept one's"
    let mut end = paired();
    for (message, kept) in [
        (repl(4, 0, 3, 5, C), pair(2, 1, 4)),
        (repl(4, 0, 4, 5, C), pair(5, 4, 4)),
        (repl(0, 0, 9, 6, C), pair(6, 0, 9)),
        (repl(4, 0, 8, 5, C), pair(6, 0, 9)),
        (repl(4, 0, 9, 5, Cue::with_focus(1)), pair(6, 0, 9)),
        (repl(2, 0, 9, 5, C), pair(6, 0, 9)),
        (repl(4, 0, 2, 5, C), pair(6, 0, 9)),
        (data(0, 20, C), pair(6, 0, 9)),
        (rqst(4, 0, 30), pair(6, 0, 9)),
        (xprs(4, 0, 31, 2), pair(6, 0, 9)),
        (sess(4, 0, &[(0, 40)], &[]), pair(6, 0, 9)),
        (repl(4, 0, 9, 5, C), pair(5, 4, 9)),
    ] {
        hear(&mut end, &message, 50);
        assert_eq!(end.sources[0].pair, kept, "{message:?}");
    }
    assert!(end.sources[1..].iter().all(|source| source.pair.is_none()));
    // "until Leave or Crash"
    for event in [Event::Leave, Event::Crash] {
        let mut end = end.clone();
        assert_eq!(act(&mut end, &event, 60), Answer::Done);
        assert!(end.sources.iter().all(|source| source.pair.is_none()));
    }
    // A repair of an own cue counts too.
    send(&mut end, C, 60);
    assert_eq!(hear(&mut end, &repl(4, 2, 0, 5, C), 61), Answer::Done);
    assert_eq!(end.sources[2].pair, pair(5, 4, 0));
}

#[test]
fn which_gap_sets_an_express_wait() {
    let gap = |end: &End, message, number: usize| {
        let mut end = end.clone();
        hear(&mut end, &message, 10);
        request(&end, 0, number).express
    };
    // "A member that sets round 1 by a gap before a DATA, not a REPL, and is that requester"
    assert_eq!(gap(&plain(), data(0, 5, C), 4), None);
    let end = paired();
    for number in 5..9 {
        assert_eq!(gap(&end, data(0, 9, C), number), Some(110));
        assert_eq!(gap(&end, repl(1, 0, 9, 2, C), number), None);
        assert_eq!(gap(&end, rqst(1, 0, 9), number), None);
        assert_eq!(gap(&end, xprs(1, 0, 9, 2), number), None);
        assert_eq!(gap(&end, sess(1, 0, &[(0, 9)], &[]), number), None);
    }
    assert_eq!(gap(&end, rqst(1, 0, 9), 9), None);
    let mut other = end.clone();
    other.sources[0].pair = pair(1, 3, 4);
    assert_eq!(gap(&other, data(0, 9, C), 8), None);
    // "due E ticks on", whatever the distance; the latest there is, is sound.
    other = end.clone();
    other.sources[0].distance = 1000;
    other.params.e = 1000;
    let mut late = other.clone();
    assert_eq!(gap(&other, data(0, 9, C), 8), Some(1010));
    assert_eq!(hear(&mut late, &data(0, 9, C), CLOCK_MAX), got(0, 9));
    assert_eq!(request(&late, 0, 8).express, Some(CLOCK_MAX + 1000));
    // Numbers passed over get none, the window's do.
    let mut far = end.clone();
    assert_eq!(hear(&mut far, &data(0, 500, C), 10), got(0, 500));
    for number in 437..500 {
        assert_eq!(request(&far, 0, number).express, Some(110));
    }
}

#[test]
fn a_fired_express_wait() {
    // "Fired, it is dropped and goes out as kind 21, laid out as kind 18, with the sender then kept as host"
    let mut end = expressed();
    let waiting = request(&end, 0, 5);
    assert_eq!(act(&mut end, &Event::Fire, 109), Answer::Nothing);
    assert_eq!(
        put_out(&mut end, &Event::Fire, 110),
        [XPRS, 2, 0, 0, 0, 0, 0, 110, 1, 0, 0, 5, 1, 0, 0, 0]
    );
    let dropped = request(&end, 0, 5);
    assert_eq!(dropped.express, None);
    assert_eq!((dropped.round, dropped.due), (waiting.round, waiting.due));
    assert_eq!(act(&mut end, &Event::Fire, 110), Answer::Nothing);
    let mut end = expressed();
    assert_eq!(hear(&mut end, &repl(0, 0, 6, 7, C), 20), Answer::Done);
    assert_eq!(put_out(&mut end, &Event::Fire, 400)[12], 0);
}

#[test]
fn ties() {
    // "Express waits come before requests in ties."
    let mut end = expressed();
    hear(&mut end, &data(0, 8, C), 10);
    hear(&mut end, &data(0, 10, C), 10);
    for (number, express) in [(5, None), (7, Some(110)), (9, Some(110))] {
        let Body::Waiting(request) = &mut end.sources[0].names[number].body else {
            panic!("0,{number} waits");
        };
        (request.due, request.express) = (110, express);
    }
    end.sources[0].names[3].reply = Some(Reply {
        due: 110,
        requester: 6,
    });
    let fired: Vec<(u8, u8)> = (0..6)
        .map(|_| put_out(&mut end, &Event::Fire, 110))
        .map(|bytes| (bytes[0], bytes[11]))
        .collect();
    assert_eq!(
        fired,
        [(21, 7), (21, 9), (18, 5), (18, 7), (18, 9), (19, 3)]
    );
    assert_eq!(act(&mut end, &Event::Fire, 110), Answer::Nothing);
}

#[test]
fn it_goes_with_its_request() {
    for message in [data(0, 5, C), repl(1, 0, 5, 2, C)] {
        let mut end = expressed();
        assert_eq!(hear(&mut end, &message, 20), got(0, 5));
        assert_eq!(act(&mut end, &Event::Fire, 9000), Answer::Nothing);
    }
    // Retired: 69 stands at its place.
    let mut end = expressed();
    assert_eq!(
        hear(&mut end, &sess(1, 0, &[(0, 69)], &[]), 20),
        Answer::Done
    );
    assert_eq!(act(&mut end, &Event::Fire, 200), Answer::Nothing);
    // A new round leaves it.
    let mut end = expressed();
    assert_eq!(hear(&mut end, &rqst(1, 0, 5), 200), Answer::Done);
    let renewed = request(&end, 0, 5);
    assert_eq!((renewed.round, renewed.express), (2, Some(110)));
    end = expressed();
    end.params.e = 1000;
    assert_eq!(hear(&mut end, &data(0, 8, C), 10), got(0, 8));
    put_out(&mut end, &Event::Fire, 370);
    put_out(&mut end, &Event::Fire, 370);
    put_out(&mut end, &Event::Fire, 370);
    let renewed = request(&end, 0, 7);
    assert_eq!((renewed.round, renewed.express), (2, Some(1010)));
    for event in [Event::Leave, Event::Crash] {
        let mut end = expressed();
        assert_eq!(act(&mut end, &event, 20), Answer::Done);
        let mut empty = end.sources.iter().flat_map(|source| &source.names);
        assert!(empty.all(|record| record.body == Body::Nothing));
    }
}

#[test]
fn the_named_sender_answers_in_that_call() {
    // Host 2 holds 0,3; kind 21 of host 5 names it.
    let mut end = plain();
    end.sources[5].distance = 70;
    let arrival = Event::Arrival(bytes(&xprs(5, 0, 3, 2)));
    let out = put_out(&mut end, &arrival, 300);
    assert_eq!(out[..13], [19, 2, 0, 0, 0, 0, 1, 44, 1, 0, 0, 3, 5]);
    assert_eq!(end.sources[0].names[3].reply_quiet, 300 + 8 * 70);
    assert_eq!(end.sources[0].pair, None);
    // "clock ≥ reply-quiet"
    for (clock, quiet, answer) in [
        (860, 860, Answer::Out(40)),
        (859, 860, Answer::Ignored),
        (861, 860, Answer::Out(40)),
    ] {
        let mut end = end.clone();
        let record = &mut end.sources[0].names[3];
        record.reply_quiet = quiet;
        record.reply = Some(Reply {
            due: 900,
            requester: 6,
        });
        let before = record.reply;
        assert_eq!(act(&mut end, &arrival, clock), answer);
        let kept = if answer == Answer::Ignored {
            before
        } else {
            None
        };
        assert_eq!(end.sources[0].names[3].reply, kept);
    }
}

#[test]
fn otherwise_it_is_an_rqst_of_its_sender() {
    // Whoever is named, and not held; or another is named, and held.
    let base = expressed();
    for number in 0..12 {
        for host in (0..8).filter(|&host| host != 5) {
            for clock in [10, 170, 171, 500] {
                let held = [3, 4, 6].contains(&number);
                if held && host == 2 && clock >= base.sources[0].names[number].reply_quiet {
                    continue;
                }
                let (mut end, mut other) = (base.clone(), base.clone());
                let number = number as u16;
                let answer = hear(&mut end, &xprs(5, 0, number, host), clock);
                assert_eq!(answer, hear(&mut other, &rqst(5, 0, number), clock));
                assert_eq!(end, other);
            }
        }
    }
    let mut end = base;
    assert_eq!(hear(&mut end, &xprs(2, 0, 6, 5), 10), Answer::Ignored);
}

/// Lost cues on one way: the second is repaired by kind 21, in the sender's call that hears it.
#[test]
fn the_second_loss_is_repaired_at_once() {
    let mut ends: Vec<End> = (0..3).map(member).collect();
    for end in &mut ends {
        end.params = Params {
            e: 20,
            ..Params::STANDARD
        };
    }
    let mut clock = 0;
    let mut waited = Vec::new();
    let opening = Event::Arrival(send(&mut ends[0], C, clock));
    for end in &mut ends[1..] {
        assert_eq!(act(end, &opening, clock), got(0, 0));
    }
    for _ in 0..3 {
        let first = send(&mut ends[0], C, clock);
        let next = send(&mut ends[0], C, clock);
        for (host, heard) in [(1, &first), (1, &next), (2, &next)] {
            act(&mut ends[host], &Event::Arrival(heard.clone()), clock);
        }
        let began = clock;
        let request = loop {
            clock += 1;
            let (fired, out) = watched(&mut ends[2], &Event::Fire, clock, &[0; DRAWS], OUTPUT_LEN);
            if let Answer::Out(length) = fired {
                break out[..length].to_vec();
            }
        };
        let heard = Event::Arrival(request.clone());
        let (answer, out) = watched(&mut ends[1], &heard, clock, &[0; DRAWS], OUTPUT_LEN);
        let reply = match answer {
            Answer::Out(length) => out[..length].to_vec(),
            _ => {
                clock += 160;
                put_out(&mut ends[1], &Event::Fire, clock)
            }
        };
        let answer = act(&mut ends[2], &Event::Arrival(reply), clock);
        assert!(matches!(answer, Answer::Got { source: 0, .. }));
        waited.push((request[0], clock - began));
    }
    assert_eq!(waited, [(18, 360 + 160), (21, 20), (21, 20)]);
}
