//! Each clause of "A state is sound if", by a state that breaks just it.

use twin::cue::Cue;
use twin::end::{
    Answer, Attempt, Body, End, Event, Heard, Pair, Record, Reply, Request, Status, TIME_LIMIT,
};
use twin::CLOCK_MAX;

use crate::support::*;

/// Host 1's end as a member at clock 1000: own cues 0 and 1, of source 0 the cues
/// 3 and 5 with a request for 4 between, and a stamp heard from host 2.
fn busy() -> End {
    let mut end = member(1);
    send(&mut end, Cue::ZERO, 10);
    send(&mut end, Cue::with_focus(7), 20);
    hear(&mut end, &data(0, 3, Cue::with_focus(1)), 30);
    hear(&mut end, &data(0, 5, Cue::with_focus(2)), 40);
    hear(&mut end, &rqst(2, 0, 5), 50);
    hear(&mut end, &sess(2, 60, &[], &[]), 60);
    act(&mut end, &Event::Join, 1000);
    assert!(end.sound());
    end
}

fn sound(base: &End, change: impl FnOnce(&mut End)) {
    let mut end = base.clone();
    change(&mut end);
    assert!(end.sound());
    assert_eq!(act(&mut end, &Event::Join, CLOCK_MAX), Answer::Ignored);
}

fn unsound(base: &End, change: impl FnOnce(&mut End)) {
    let mut end = base.clone();
    change(&mut end);
    assert!(!end.sound());
    for event in crate::questions::every_event() {
        assert_eq!(act(&mut end, &event, CLOCK_MAX), Answer::Refused(3));
    }
}

fn waiting(end: &mut End) -> &mut Request {
    match &mut end.sources[0].names[4].body {
        Body::Waiting(request) => request,
        _ => panic!("0,4 waits"),
    }
}

#[test]
fn fields_in_range() {
    let end = busy();
    unsound(&end, |e| e.host = 8);
    unsound(&end, |e| e.host = 255);
    unsound(&end, |e| e.clock = CLOCK_MAX + 1);
    unsound(&end, |e| e.clock = u64::MAX);
    unsound(&end, |e| e.params.c1 = 33);
    unsound(&end, |e| e.params.c2 = 33);
    unsound(&end, |e| e.params.c3 = 33);
    unsound(&end, |e| e.params.d1 = 33);
    unsound(&end, |e| e.params.d2 = 33);
    unsound(&end, |e| e.params.d3 = 255);
    sound(&end, |e| e.params.e = 1000);
    unsound(&end, |e| e.params.e = 1001);
    unsound(&end, |e| e.params.e = u16::MAX);
    // The opening's constraints are question 13's and not the soundness test's.
    sound(&end, |e| e.params = params([0, 32, 32, 32, 32, 32]));

    let idle = member(3);
    sound(&idle, |e| e.next = 65_536);
    unsound(&idle, |e| e.next = 65_537);
    unsound(&idle, |e| e.next = u32::MAX);
}

#[test]
fn distances() {
    let end = busy();
    sound(&end, |e| e.sources[0].distance = 1);
    sound(&end, |e| e.sources[7].distance = 1000);
    unsound(&end, |e| e.sources[0].distance = 0);
    unsound(&end, |e| e.sources[7].distance = 1001);
    unsound(&end, |e| e.sources[1].distance = 1);
    unsound(&end, |e| e.sources[1].distance = 40);
}

#[test]
fn first_and_last() {
    let end = busy();
    // "both or neither"
    unsound(&end, |e| e.sources[0].first = None);
    unsound(&end, |e| e.sources[0].last = None);
    unsound(&end, |e| e.sources[3].first = Some(0));
    unsound(&end, |e| e.sources[3].last = Some(0));
    // "first ≤ last"
    unsound(&member(3), |e| {
        e.sources[0].first = Some(1);
        e.sources[0].last = Some(0);
        e.sources[0].origin = Some(0);
    });
    // "last − first at most 63": the places of 67 to 69 are those of 3 to 5.
    sound(&end, |e| {
        e.sources[0].first = Some(67);
        e.sources[0].last = Some(69);
    });
    sound(&end, |e| {
        e.sources[0].first = Some(67);
        e.sources[0].last = Some(69);
        e.sources[0].origin = Some(67);
    });
    unsound(&end, |e| {
        e.sources[0].first = Some(64);
        e.sources[0].last = Some(64);
    });
    unsound(&end, |e| e.sources[0].last = Some(255));
    let span = |first, last| {
        move |e: &mut End| {
            let source = &mut e.sources[0];
            (source.first, source.last) = (Some(first), Some(last));
            source.origin = Some(first);
            for record in &mut source.names {
                record.body = Body::Held;
            }
        }
    };
    for first in [0, 1, 63, 64, 65_472] {
        sound(&member(3), span(first, first + 63));
        unsound(&member(3), span(first, first + 62));
    }
    unsound(&member(3), span(0, 64));
    unsound(&member(3), span(65_471, 65_535));
    unsound(&member(3), span(0, 65_535));
    // "that count at most first, 0 without one"
    sound(&end, |e| e.sources[0].missed = 3);
    unsound(&end, |e| e.sources[0].missed = 4);
    unsound(&end, |e| e.sources[1].missed = 1);
    unsound(&end, |e| e.sources[3].missed = 1);
    // "own last, if any, is next−1"
    unsound(&end, |e| e.next = 1);
    unsound(&end, |e| e.next = 3);
    unsound(&end, |e| e.next = 0);
    unsound(&end, |e| {
        e.next = 0;
        e.sources[1].last = Some(255);
    });
    sound(&member(3), |e| e.next = 17);
}

#[test]
fn names() {
    let end = busy();
    // "names outside first..last hold nothing and have reply-quiet 0"
    for number in [0, 2, 6, 63] {
        let body = end.sources[0].names[3].body;
        let request = end.sources[0].names[4].body;
        unsound(&end, |e| e.sources[0].names[number].body = body);
        unsound(&end, |e| e.sources[0].names[number].body = request);
        unsound(&end, |e| e.sources[0].names[number].reply_quiet = 1);
        unsound(&end, |e| {
            e.sources[0].names[number].reply = Some(Reply {
                due: 0,
                requester: 2,
            })
        });
    }
    unsound(&end, |e| e.sources[3].names[0].reply_quiet = 1);
    // "those inside have a cue or a request, own ones a cue"
    unsound(&end, |e| e.sources[0].names[3].body = Body::Nothing);
    unsound(&end, |e| e.sources[0].names[4].body = Body::Nothing);
    unsound(&end, |e| e.sources[1].names[0].body = Body::Nothing);
    unsound(&end, |e| {
        e.sources[1].names[0].body = e.sources[0].names[4].body
    });
    // A held cue's fields are in range; bytes beside no held cue are free.
    for number in [3, 5] {
        unsound(&end, |e| {
            e.sources[0].names[number].cue = Cue::with_focus(2001)
        });
    }
    unsound(&end, |e| e.sources[1].names[1].cue = Cue([255; 24]));
    sound(&end, |e| e.sources[0].names[4].cue = Cue([200; 24]));
    sound(&end, |e| e.sources[5].names[9].cue = Cue([200; 24]));
}

#[test]
fn requests() {
    let end = busy();
    for round in [1, 2, 16] {
        sound(&end, |e| waiting(e).round = round);
    }
    for round in [0, 17, 255] {
        unsound(&end, |e| waiting(e).round = round);
    }
    // "due and quiet times are below 2^48+2^32"
    sound(&end, |e| waiting(e).due = TIME_LIMIT - 1);
    unsound(&end, |e| waiting(e).due = TIME_LIMIT);
    sound(&end, |e| waiting(e).quiet_until = TIME_LIMIT - 1);
    unsound(&end, |e| waiting(e).quiet_until = u64::MAX);
    // "with a held cue perhaps one waiting reply": none beside a request.
    unsound(&end, |e| {
        e.sources[0].names[4].reply = Some(Reply {
            due: 0,
            requester: 2,
        })
    });
    // Inside first..last a reply-quiet need only be below the limit.
    sound(&end, |e| e.sources[0].names[4].reply_quiet = TIME_LIMIT - 1);
    unsound(&end, |e| e.sources[0].names[4].reply_quiet = TIME_LIMIT);
}

#[test]
fn replies() {
    let end = busy();
    let with = |requester, due| {
        move |e: &mut End| e.sources[0].names[3].reply = Some(Reply { due, requester })
    };
    sound(&end, with(2, TIME_LIMIT - 1));
    unsound(&end, with(2, TIME_LIMIT));
    // "a requester is neither oneself nor the source"
    unsound(&end, with(1, 0));
    unsound(&end, with(0, 0));
    unsound(&end, with(8, 0));
    sound(&end, |e| e.sources[0].names[3].reply_quiet = TIME_LIMIT - 1);
    unsound(&end, |e| e.sources[0].names[3].reply_quiet = TIME_LIMIT);
    unsound(&end, |e| e.sources[1].names[0].reply_quiet = u64::MAX);
}

#[test]
fn heard_stamps() {
    let end = busy();
    let with = |host: usize, stamp, at| {
        move |e: &mut End| {
            e.sources[host].heard = Some(Heard {
                stamp,
                at,
                sources: 255,
            })
        }
    };
    // "heard times are at most the clock"; the stamp is another's clock.
    sound(&end, with(2, CLOCK_MAX, 1000));
    unsound(&end, with(2, 0, 1001));
    unsound(&end, with(2, CLOCK_MAX + 1, 1000));
    // "no stamp is heard from oneself"
    unsound(&end, with(1, 0, 0));
}

fn pair(requester: u8, sender: u8, number: u16) -> Option<Pair> {
    Some(Pair {
        requester,
        sender,
        number,
    })
}

#[test]
fn pairs_and_express_waits() {
    let end = busy();
    // Document 02, P8: "a sound state has one only beside a request and with a kept pair".
    unsound(&end, |e| waiting(e).express = Some(0));
    unsound(&end, |e| {
        waiting(e).express = Some(0);
        e.sources[2].pair = pair(1, 2, 0);
    });
    let with = |due| {
        move |e: &mut End| {
            waiting(e).express = Some(due);
            e.sources[0].pair = pair(1, 2, 0);
        }
    };
    sound(&end, with(0));
    sound(&end, with(TIME_LIMIT - 1));
    unsound(&end, with(TIME_LIMIT));
    // "a kept pair's sender is always another": oneself is 1.
    for source in 0..8 {
        sound(&end, |e| e.sources[source].pair = pair(1, 0, 65_535));
        sound(&end, |e| e.sources[source].pair = pair(7, 7, 0));
        unsound(&end, |e| e.sources[source].pair = pair(0, 1, 0));
        unsound(&end, |e| e.sources[source].pair = pair(0, 8, 0));
        unsound(&end, |e| e.sources[source].pair = pair(8, 0, 0));
    }
}

/// Document 02, P9: "A sound state keeps that first original's number, at most first, exactly beside another's first".
#[test]
fn first_originals() {
    let end = busy();
    assert_eq!(end.sources[0].origin, Some(3));
    for number in 0..4 {
        sound(&end, |e| e.sources[0].origin = Some(number));
    }
    unsound(&end, |e| e.sources[0].origin = Some(4));
    unsound(&end, |e| e.sources[0].origin = Some(u16::MAX));
    unsound(&end, |e| e.sources[0].origin = None);
    unsound(&end, |e| e.sources[1].origin = Some(0));
    unsound(&end, |e| e.sources[2].origin = Some(0));
}

/// P9: "tries only of other hosts at fetchable numbers, Late marks only beside a try".
#[test]
fn tries_and_late_marks() {
    let end = busy();
    let with = |source: usize, place: usize, tried, late| {
        move |e: &mut End| e.sources[source].attempts[place] = Attempt { tried, late }
    };
    // 0, 1 and 2 are fetchable, just below 3; oneself is 1.
    for place in 0..64 {
        let check = if place < 3 { sound } else { unsound };
        check(&end, with(0, place, 0b1111_1101, false));
        check(&end, with(0, place, 1, true));
        unsound(&end, with(0, place, 2, false));
        unsound(&end, with(0, place, 255, true));
        unsound(&end, with(0, place, 0, true));
        sound(&end, with(0, place, 0, false));
        unsound(&end, with(1, place, 1, false));
        unsound(&end, with(2, place, 1, false));
    }
    // With a higher first original: its 64 numbers have all places; with 65,535 too.
    for origin in [63, 64, 65, 100, 65_535] {
        for place in 0..64 {
            let high = |e: &mut End| {
                let source = &mut e.sources[0];
                (source.first, source.last) = (Some(u16::MAX), Some(u16::MAX));
                source.names = [Record::EMPTY; 64];
                source.names[63].body = Body::Held;
                source.origin = Some(origin);
                source.attempts[place].tried = 1;
            };
            let none = origin == 63 && place == 63;
            let check = if none { unsound } else { sound };
            check(&end, high);
        }
    }
}

#[test]
fn non_members() {
    // "a non-member has no first, request, reply or heard stamp, and distances to
    // others at 40"
    for status in [
        Status::Idle,
        Status::Joining,
        Status::Leaving,
        Status::Crashed,
    ] {
        unsound(&busy(), |e| e.status = status);
        let end = with_status(1, status);
        unsound(&end, |e| e.sources[2].distance = 41);
        unsound(&end, |e| e.sources[2].missed = 1);
        // P8: "non-members keep none".
        unsound(&end, |e| e.sources[3].pair = pair(2, 0, 0));
        unsound(&end, |e| e.sources[1].distance = 40);
        unsound(&end, |e| {
            e.sources[2].heard = Some(Heard {
                stamp: 0,
                at: 0,
                sources: 0,
            })
        });
        unsound(&end, |e| {
            e.sources[2].first = Some(0);
            e.sources[2].last = Some(0);
            e.sources[2].origin = Some(0);
            e.sources[2].names[0].body = Body::Held;
        });
        // P9: "non-members keep none".
        unsound(&end, |e| e.sources[2].origin = Some(0));
        unsound(&end, |e| e.sources[2].attempts[0].tried = 1);
        unsound(&end, |e| e.sources[2].attempts[0].late = true);
        unsound(&end, |e| e.sources[2].names[0].body = Body::Held);
        unsound(&end, |e| e.sources[2].names[0].reply_quiet = 1);
        // The next own number stays, whatever the status.
        let mut kept = end.clone();
        kept.next = 40;
        assert!(kept.sound());
    }
}
