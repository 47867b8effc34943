//! The order of an event's questions, and in which status they are asked.

use twin::cue::Cue;
use twin::end::{Answer, End, Event, Status};
use twin::message::put_together_old;
use twin::{CLOCK_MAX, DRAWS, OUTPUT_LEN};

use crate::support::*;

const STATUSES: [Status; 5] = [
    Status::Idle,
    Status::Joining,
    Status::Member,
    Status::Leaving,
    Status::Crashed,
];

pub fn every_event() -> Vec<Event> {
    vec![
        Event::Join,
        Event::Joined,
        Event::Leave,
        Event::Left,
        Event::Crash,
        Event::Send(Cue::ZERO),
        Event::Fire,
        Event::Report,
        Event::Fetch {
            source: 0,
            number: 0,
        },
        Event::Arrival(bytes(&sess(7, 0, &[], &[]))),
    ]
}

#[test]
fn any_event_asks_1_to_5_in_every_status() {
    for status in STATUSES {
        let mut good = with_status(1, status);
        good.clock = 50;
        let mut unsound = good.clone();
        unsound.next = 65_537;
        let mut events = every_event();
        // The later questions' no does not come first.
        events.push(Event::Send(Cue::with_focus(-2001)));
        events.push(Event::Arrival(vec![]));
        for event in events {
            let ask = |end: &End, clock, draws: usize, output| {
                watched(&mut end.clone(), &event, clock, &vec![9; draws], output).0
            };
            assert_eq!(ask(&unsound, CLOCK_MAX + 1, 0, 127), Answer::Refused(1));
            assert_eq!(ask(&unsound, CLOCK_MAX + 1, 63, 128), Answer::Refused(2));
            assert_eq!(ask(&unsound, CLOCK_MAX + 1, 65, 128), Answer::Refused(2));
            assert_eq!(ask(&unsound, CLOCK_MAX + 1, 64, 128), Answer::Refused(3));
            assert_eq!(ask(&good, CLOCK_MAX + 1, 64, 128), Answer::Refused(4));
            assert_eq!(ask(&good, u64::MAX, 64, 128), Answer::Refused(4));
            assert_eq!(ask(&good, 49, 64, 128), Answer::Refused(5));
        }
    }
}

#[test]
fn send_and_arrival_ask_in_every_status() {
    // Only 7 has "For a member"; 6 and 8..11 are asked of everyone, before any
    // Ignored.
    for status in STATUSES {
        let mut end = with_status(1, status);
        let bad = Event::Send(Cue::with_focus(2001));
        assert_eq!(act(&mut end, &bad, 3), Answer::Refused(6));
        let mut looped = bytes(&data(1, 0, Cue::ZERO));
        looped[9] = 8;
        let mut old = data(1, 64, Cue::ZERO);
        old.kind = 1;
        for (bytes, number) in [
            (vec![4], 8),
            (vec![4; 11], 8),
            (vec![0; 12], 9),
            (looped, 10),
            (put_together_old(&old), 10),
            (vec![4, 1, 0, 0, 0, 0, 0, 0, 0, 0, 2, 2, 0, 1, 0, 0], 11),
        ] {
            assert_eq!(
                act(&mut end, &Event::Arrival(bytes), 3),
                Answer::Refused(number)
            );
        }
        end.next = 65_536;
        let send = act(&mut end, &Event::Send(Cue::ZERO), 3);
        if status == Status::Member {
            assert_eq!(send, Answer::Refused(7));
            // 6 comes before 7.
            assert_eq!(act(&mut end, &bad, 3), Answer::Refused(6));
        } else {
            assert_eq!(send, Answer::Ignored);
        }
    }
}

#[test]
fn draws_may_have_any_value() {
    for draw in [0, 1, 255, 256, 65534, 65535] {
        let mut end = member(0);
        let answer = watched(&mut end, &Event::Fire, 0, &[draw; DRAWS], OUTPUT_LEN).0;
        assert_eq!(answer, Answer::Nothing);
    }
}
