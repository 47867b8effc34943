//! Fetching what came before: document 02, P9.

use twin::book::{check, Call, Fault};
use twin::cue::Cue;
use twin::end::{place_of, Answer, Attempt, End, Event, Heard};
use twin::message::{self, FTCH, LATE};
use twin::reason::{Reason, Why};
use twin::{DRAWS, OUTPUT_LEN};

use crate::support::*;

const C: Cue = Cue::ZERO;
const NO_FETCH: Why = Why::Ignored(Reason::NoFetch);

fn fetch(source: u8, number: u16) -> Event {
    Event::Fetch { source, number }
}

fn handed(source: u8, number: u16) -> Answer {
    Answer::Late { source, number }
}

/// A member of host 2 whose first original of source 0 was this number.
fn joined(origin: u16) -> End {
    let mut end = member(2);
    let got = Answer::Got {
        source: 0,
        number: origin,
    };
    assert_eq!(hear(&mut end, &data(0, origin, C), 0), got);
    assert_eq!(end.sources[0].origin, Some(origin));
    end
}

/// The same after these hosts' session messages, which reported source 0, each at a distance.
fn with_candidates(origin: u16, hosts: &[(u8, u64)]) -> End {
    let mut end = joined(origin);
    for &(host, distance) in hosts {
        assert_eq!(
            hear(&mut end, &sess(host, 0, &[(0, 0)], &[]), 0),
            Answer::Done
        );
        end.sources[usize::from(host)].distance = distance;
    }
    end
}

/// The host that a fetch tries; none where it is exhausted.
fn tried(end: &mut End, number: u16) -> Option<u8> {
    let (answer, out) = watched(end, &fetch(0, number), 5, &[0; DRAWS], OUTPUT_LEN);
    match answer {
        Answer::Exhausted => None,
        Answer::Out(16) => Some(out[12]),
        other => panic!("{other:?}"),
    }
}

fn attempt(end: &End, number: u16) -> Attempt {
    end.sources[0].attempts[place_of(number)]
}

#[test]
fn which_numbers() {
    // "any of the 64 numbers just below the first original it had since joining from another host; any other fetch [...] is Ignored."
    for origin in [0, 1, 2, 63, 64, 65, 100, 128, 65_535] {
        let end = with_candidates(origin, &[(3, 40)]);
        let numbers = (0..=300u16).chain(65_400..=65_535);
        for number in numbers {
            let below = i32::from(origin) - i32::from(number);
            let (mut called, event) = (end.clone(), fetch(0, number));
            let why = end.why(&event, 5);
            let answer = act(&mut called, &event, 5);
            if (1..=64).contains(&below) {
                assert_eq!((answer, why), (Answer::Out(16), Why::None));
                assert_eq!(attempt(&called, number).tried, 8);
            } else {
                assert_eq!((answer, why), (Answer::Ignored, NO_FETCH));
                let clocked = End {
                    clock: 5,
                    ..end.clone()
                };
                assert_eq!(called, clocked);
            }
        }
        for source in [1, 2, 3, 7, 8, 255] {
            let below = fetch(source, origin.saturating_sub(1));
            assert_eq!(act(&mut end.clone(), &below, 5), Answer::Ignored);
        }
    }
    // An own cue is no original from another host.
    let mut end = with_candidates(9, &[(3, 40)]);
    send(&mut end, C, 1);
    assert_eq!(end.sources[2].origin, None);
    assert_eq!(act(&mut end, &fetch(2, 0), 1), Answer::Ignored);
}

#[test]
fn the_first_original_stays() {
    let mut end = with_candidates(100, &[(3, 40)]);
    for message in [
        data(0, 101, C),
        repl(3, 0, 110, 4, C),
        rqst(3, 0, 120),
        sess(3, 0, &[(0, 200)], &[]),
        data(0, 400, C),
    ] {
        hear(&mut end, &message, 1);
        assert_eq!(end.sources[0].origin, Some(100));
    }
    assert_eq!(end.sources[0].first, Some(337));
    assert_eq!(act(&mut end, &fetch(0, 336), 5), Answer::Ignored);
    assert_eq!(tried(&mut end, 36), Some(3));
}

#[test]
fn whom_a_fetch_tries() {
    // "the one with the least distance, ties to the lower host, among those not yet tried for that number since joining"
    let hosts = [(0, 50), (1, 41), (3, 40), (5, 40), (7, 1000)];
    let mut end = with_candidates(100, &hosts);
    for host in [3, 5, 1, 0, 7] {
        assert_eq!(tried(&mut end, 99), Some(host));
    }
    assert_eq!(tried(&mut end, 99), None);
    assert_eq!(attempt(&end, 99).tried, 0b1010_1011);
    assert_eq!(tried(&mut end, 98), Some(3));
    end.sources[7].distance = 1;
    assert_eq!(tried(&mut end, 98), Some(7));
    // "the other hosts whose last heard session message since joining reported that source"
    hear(&mut end, &sess(5, 9, &[(1, 4)], &[]), 6);
    hear(&mut end, &sess(4, 9, &[(0, 4)], &[]), 6);
    end.sources[4].distance = 41;
    let mut rest = Vec::new();
    while let Answer::Out(_) = act(&mut end.clone(), &fetch(0, 98), 6) {
        rest.push(put_out(&mut end, &fetch(0, 98), 6)[12]);
    }
    assert_eq!(rest, [1, 4, 0]);
    assert_eq!(act(&mut end, &fetch(0, 98), 6), Answer::Exhausted);
    // A try is not forgotten, and a host that reports again can be tried.
    hear(&mut end, &sess(3, 9, &[(0, 4)], &[]), 7);
    assert_eq!(act(&mut end, &fetch(0, 98), 7), Answer::Exhausted);
    hear(&mut end, &sess(5, 9, &[(0, 4)], &[]), 7);
    assert_eq!(put_out(&mut end, &fetch(0, 98), 7)[12], 5);
}

#[test]
fn a_fetch_changes_its_try_alone() {
    let mut end = with_candidates(100, &[(3, 40)]);
    let mut expected = end.clone();
    expected.clock = 7;
    expected.sources[0].attempts[35].tried = 8;
    let out = put_out(&mut end, &fetch(0, 99), 7);
    assert_eq!(out, [FTCH, 2, 0, 0, 0, 0, 0, 7, 1, 0, 0, 99, 3, 0, 0, 0]);
    assert_eq!(end, expected);
    assert_eq!(act(&mut end, &fetch(0, 99), 7), Answer::Exhausted);
    assert_eq!(end, expected);
}

#[test]
fn the_sources_reported() {
    let mut end = member(2);
    let reports: Vec<(u8, u16)> = (0..8).map(|source| (source, 5)).collect();
    for (reports, sources) in [
        (&reports[..], 255),
        (&reports[2..4], 0b1100),
        (&reports[..0], 0),
        (&reports[7..], 128),
    ] {
        hear(&mut end, &sess(4, 3, reports, &[]), 6);
        let heard = Heard {
            stamp: 3,
            at: 6,
            sources,
        };
        assert_eq!(end.sources[4].heard, Some(heard));
    }
    assert_eq!(
        hear(&mut end, &sess(2, 3, &reports, &[]), 6),
        Answer::Ignored
    );
    assert_eq!(end.sources[2].heard, None);
}

#[test]
fn the_tried_host_answers() {
    // "The tried host answers with kind 23 in that call if it holds the cue."
    let mut end = joined(5);
    hear(&mut end, &data(0, 7, Cue::with_focus(-2)), 1);
    let own = send(&mut end, Cue::with_focus(3), 1);
    assert_eq!(own[0], message::DATA);
    for (source, number, focus) in [(0, 5, [0, 0]), (0, 7, [0xFF, 0xFE]), (2, 0, [0, 3])] {
        let arrival = Event::Arrival(bytes(&ftch(4, source, number, 2)));
        let mut answering = end.clone();
        let out = put_out(&mut answering, &arrival, 9);
        let number = number as u8;
        let head = [LATE, 2, 0, 0, 0, 0, 0, 9, 1, source, 0, number, 4, 1];
        assert_eq!((&out[..14], &out[14..16]), (&head[..], &focus[..]));
        let clocked = End {
            clock: 9,
            ..end.clone()
        };
        assert_eq!(answering, clocked);
        assert_eq!(end.why(&arrival, 9), Why::None);
    }
    // "All else is Ignored".
    for message in [
        ftch(4, 0, 6, 2),
        ftch(4, 0, 4, 2),
        ftch(4, 0, 8, 2),
        ftch(4, 0, 69, 2),
        ftch(4, 2, 1, 2),
        ftch(4, 1, 0, 2),
        ftch(4, 0, 5, 3),
        ftch(4, 0, 9, 3),
    ] {
        let arrival = Event::Arrival(bytes(&message));
        assert_eq!(end.why(&arrival, 9), NO_FETCH);
        let mut called = end.clone();
        assert_eq!(act(&mut called, &arrival, 9), Answer::Ignored);
        let clocked = End {
            clock: 9,
            ..end.clone()
        };
        assert_eq!(called, clocked);
    }
}

#[test]
fn its_requester_hands_it_out() {
    // "if it has tried that sender for the number since joining, at most once since joining"
    let mut end = with_candidates(100, &[(3, 40), (4, 40)]);
    let cue = Cue::with_focus(9);
    let again = late(3, 0, 99, 2, cue);
    assert_eq!(hear(&mut end, &again, 1), Answer::Ignored);
    assert_eq!(tried(&mut end, 99), Some(3));
    for message in [
        late(4, 0, 99, 2, cue),
        late(0, 0, 99, 2, cue),
        late(3, 0, 98, 2, cue),
        late(3, 0, 35, 2, cue),
        late(3, 0, 163, 2, cue),
        late(3, 0, 100, 2, cue),
        late(3, 0, 101, 2, cue),
        late(3, 1, 99, 2, cue),
        late(3, 0, 99, 4, cue),
    ] {
        let before = end.clone();
        assert_eq!(end.why(&Event::Arrival(bytes(&message)), 5), NO_FETCH);
        assert_eq!(hear(&mut end, &message, 5), Answer::Ignored);
        assert_eq!(end, before);
    }
    let mut expected = end.clone();
    expected.clock = 6;
    expected.sources[0].attempts[35].late = true;
    let arrival = Event::Arrival(bytes(&again));
    let (answer, out) = watched(&mut end, &arrival, 6, &[0; DRAWS], OUTPUT_LEN);
    assert_eq!(answer, handed(0, 99));
    assert_eq!(out[..24], cue.0);
    assert_eq!(end, expected);
    assert_eq!(hear(&mut end, &again, 6), Answer::Ignored);
    assert_eq!(end.why(&arrival, 6), NO_FETCH);
    assert_eq!(act(&mut end, &fetch(0, 99), 6), Answer::Ignored);
    assert_eq!(hear(&mut end, &ftch(5, 0, 99, 2), 6), Answer::Ignored);
    assert_eq!(end, expected);
}

#[test]
fn since_joining() {
    for rejoins in [true, false] {
        let mut end = with_candidates(100, &[(3, 40)]);
        assert_eq!(tried(&mut end, 99), Some(3));
        assert_eq!(tried(&mut end, 98), Some(3));
        assert_eq!(hear(&mut end, &late(3, 0, 98, 2, C), 5), handed(0, 98));
        if !rejoins {
            act(&mut end, &Event::Crash, 6);
            assert_eq!(end.sources[0].attempts, [Attempt::NONE; 64]);
            assert_eq!(end.sources[0].origin, None);
            continue;
        }
        for event in [Event::Leave, Event::Left, Event::Join, Event::Joined] {
            act(&mut end, &event, 6);
            assert_eq!(end.sources[0].attempts, [Attempt::NONE; 64]);
        }
        let waiting = late(3, 0, 99, 2, C);
        assert_eq!(hear(&mut end, &waiting, 7), Answer::Ignored);
        hear(&mut end, &data(0, 100, C), 7);
        assert_eq!(hear(&mut end, &waiting, 7), Answer::Ignored);
        assert_eq!(act(&mut end, &fetch(0, 98), 7), Answer::Exhausted);
        hear(&mut end, &sess(3, 0, &[(0, 100)], &[]), 7);
        assert_eq!(put_out(&mut end, &fetch(0, 98), 7)[12], 3);
        assert_eq!(hear(&mut end, &late(3, 0, 98, 2, C), 7), handed(0, 98));
    }
}

/// Three ends, the third of which joins late and gets everything; the calls as the book is fed them.
fn story() -> Vec<Call> {
    let mut ends: Vec<End> = (0..3).map(idle).collect();
    let mut calls = Vec::new();
    let mut call = |host: u8, clock: u64, event: Event| -> (Answer, Vec<u8>) {
        let end = &mut ends[usize::from(host)];
        let (answer, out) = watched(end, &event, clock, &[0; DRAWS], OUTPUT_LEN);
        let status = end.status;
        calls.push(Call {
            host,
            event,
            answer,
            out: out.clone(),
            status,
        });
        let length = match answer {
            Answer::Out(length) => length,
            _ => 0,
        };
        (answer, out[..length].to_vec())
    };
    for host in 0..2 {
        call(host, 0, Event::Join);
        call(host, 0, Event::Joined);
    }
    for number in 0..70 {
        let (_, sent) = call(0, 10, Event::Send(Cue::with_focus(number)));
        call(1, 10, Event::Arrival(sent.clone()));
        if number == 69 {
            call(2, 10, Event::Join);
            call(2, 10, Event::Joined);
            call(2, 10, Event::Arrival(sent));
        }
    }
    for host in 0..2 {
        let (_, report) = call(host, 20, Event::Report);
        call(2, 20, Event::Arrival(report));
    }
    for number in (6..69).rev() {
        let (_, asked) = call(2, 30, fetch(0, number));
        let (_, brought) = call(0, 30, Event::Arrival(asked.clone()));
        call(1, 30, Event::Arrival(asked));
        let (answer, _) = call(2, 30, Event::Arrival(brought.clone()));
        assert_eq!(answer, handed(0, number));
        let (answer, _) = call(2, 30, Event::Arrival(brought));
        assert_eq!(answer, Answer::Ignored);
    }
    // 5 is the 64th below: nobody holds it any more. 4 is the 65th.
    for _ in 0..2 {
        let (_, asked) = call(2, 30, fetch(0, 5));
        for host in 0..2 {
            assert_eq!(
                call(host, 30, Event::Arrival(asked.clone())).0,
                Answer::Ignored
            );
        }
    }
    assert_eq!(call(2, 30, fetch(0, 5)).0, Answer::Exhausted);
    assert_eq!(call(2, 30, fetch(0, 4)).0, Answer::Ignored);
    let (_, sent) = call(0, 40, Event::Send(Cue::with_focus(70)));
    let got = Answer::Got {
        source: 0,
        number: 70,
    };
    assert_eq!(call(2, 40, Event::Arrival(sent)).0, got);
    calls
}

#[test]
fn a_late_joiner_in_the_book() {
    let calls = story();
    assert_eq!(check(&calls), Ok(()));
    let at = calls
        .iter()
        .position(|call| call.answer == handed(0, 50))
        .expect("50 is handed out");
    let judged = |change: &dyn Fn(&mut Vec<Call>)| {
        let mut calls = story();
        change(&mut calls);
        check(&calls)
    };
    // "at most once since joining, and in the service's runs with the source's bytes"
    let twice = judged(&|calls| {
        calls[at + 1].answer = handed(0, 50);
        calls[at + 1].out = calls[at].out.clone();
    });
    assert_eq!(twice, Err((at + 1, Fault::Late)));
    for byte in [0, 1, 23] {
        let other = judged(&|calls| calls[at].out[byte] ^= 1);
        assert_eq!(other, Err((at, Fault::Late)));
    }
    let renamed = judged(&|calls| calls[at].answer = handed(0, 49));
    assert_eq!(renamed, Err((at, Fault::Late)));
    // Kinds 22 and 23 and Fetch are never Got.
    for place in [at - 3, at - 2, at - 1, at] {
        let got = Answer::Got {
            source: 0,
            number: 50,
        };
        let verdict = judged(&|calls| calls[place].answer = got);
        assert_eq!(verdict, Err((place, Fault::Answer)));
    }
}

/// P7's L is raised by "DATA, RQST, REPL and SESS (and what later counts as RQST)", which kinds 22 and 23 do not.
#[test]
fn kinds_22_and_23_leave_the_highest_number() {
    let mut end = joined(5);
    for message in [
        ftch(4, 0, 500, 2),
        ftch(4, 0, 500, 3),
        late(4, 0, 500, 2, C),
    ] {
        assert_eq!(hear(&mut end, &message, 1), Answer::Ignored);
        assert_eq!(end.sources[0].last, Some(5));
    }
}
