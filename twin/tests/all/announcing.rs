//! Announce and kind 24: document 02, P11.

use twin::book::{check, Call, Fault};
use twin::cue::Cue;
use twin::end::{Answer, Event, Status};
use twin::message::{self, Message, Name, ANNC};
use twin::reason::{Reason, Why};
use twin::OUTPUT_LEN;

use crate::support::*;

const C: Cue = Cue::ZERO;

fn announcement(sender: u8, trail: u16, lead: u16) -> Message {
    let names = [trail, lead].map(|number| Name {
        source: sender,
        number,
        host: sender,
    });
    Message {
        kind: ANNC,
        names: names.to_vec(),
        ..sess(sender, 7, &[], &[])
    }
}

/// The number of the writer's refusal, which is the reader's too.
fn refused(message: &Message) -> Option<u8> {
    let written = message::write(message, &mut [0; OUTPUT_LEN]).err();
    let read = message::read(&message::put_together(message)).err();
    assert_eq!(written, read);
    written
}

/// "has a member put out its own first and last as trail and lead in kind 24, two names laid out as kind 18's with the sender as source and
/// host".
#[test]
fn a_member_announces_its_first_and_last() {
    let mut end = member(3);
    for clock in 1..=300 {
        send(&mut end, C, clock);
    }
    let bytes = put_out(&mut end, &Event::Announce, 392);
    // 299 is 01 2B, 299 - 63 is 00 EC.
    let expected = [
        24, 3, 0, 0, 0, 0, 1, 0x88, 2, 3, 0, 0xEC, 3, 3, 1, 0x2B, 3, 0, 0, 0,
    ];
    assert_eq!(bytes, expected);
    assert_eq!(
        read(&bytes),
        Ok(Message {
            stamp: 392,
            ..announcement(3, 236, 299)
        })
    );
}

/// "without a first it gives Nothing, outside membership Ignored."
#[test]
fn without_a_first_nothing_outside_ignored() {
    let mut end = member(3);
    assert_eq!(end.why(&Event::Announce, 9), Why::None);
    assert_eq!(act(&mut end, &Event::Announce, 9), Answer::Nothing);
    // A first of another is not "its own".
    hear(&mut end, &data(0, 5, C), 9);
    assert_eq!(act(&mut end, &Event::Announce, 9), Answer::Nothing);
    for status in [Status::Idle, Status::Joining, Status::Leaving] {
        let mut end = with_status(3, status);
        let wrong = Why::Ignored(Reason::WrongStatus);
        assert_eq!(end.why(&Event::Announce, 9), wrong);
        assert_eq!(act(&mut end, &Event::Announce, 9), Answer::Ignored);
        assert_eq!(end.clock, 9);
    }
    let mut end = with_status(3, Status::Crashed);
    let crashed = Why::Ignored(Reason::Crashed);
    assert_eq!(end.why(&Event::Announce, 9), crashed);
    assert_eq!(act(&mut end, &Event::Announce, 9), Answer::Ignored);
    assert_eq!(end.clock, 0);
}

/// "Members answer kind 24 Done.": nothing but the clock changes.
#[test]
fn members_answer_kind_24_done() {
    let mut end = member(3);
    hear(&mut end, &data(0, 5, C), 1);
    for (sender, trail, lead) in [(0, 5, 5), (0, 6, 69), (0, 0, 4), (1, 0, 63)] {
        let mut before = end.clone();
        let answer = hear(&mut end, &announcement(sender, trail, lead), 4);
        assert_eq!(answer, Answer::Done);
        before.clock = 4;
        assert_eq!(end, before);
    }
    let own = announcement(3, 0, 0);
    let why = end.why(&Event::Arrival(bytes(&own)), 4);
    assert_eq!(why, Why::Ignored(Reason::OwnMessage));
    assert_eq!(hear(&mut end, &own, 4), Answer::Ignored);
    let mut outside = with_status(3, Status::Joining);
    let answer = hear(&mut outside, &announcement(0, 1, 2), 4);
    assert_eq!(answer, Answer::Ignored);
}

/// "lead is from trail to trail+63, else 11"; "with the sender as source and host"; two names and nothing else.
#[test]
fn questions_of_kind_24() {
    for (trail, lead, number) in [
        (0, 0, None),
        (5, 68, None),
        (5, 69, Some(11)),
        (5, 4, Some(11)),
        (65_472, 65_535, None),
        (65_471, 65_535, Some(11)),
        (65_535, 65_535, None),
        (65_535, 0, Some(11)),
    ] {
        let message = announcement(2, trail, lead);
        assert_eq!(refused(&message), number, "{trail} {lead}");
    }
    for place in [0, 1] {
        let mut message = announcement(2, 5, 6);
        message.names[place].source = 3;
        assert_eq!(refused(&message), Some(11));
        let mut message = announcement(2, 5, 6);
        message.names[place].host = 3;
        assert_eq!(refused(&message), Some(11));
        message.names[place].host = 8;
        assert_eq!(refused(&message), Some(10));
    }
    let mut message = announcement(2, 5, 6);
    message.names.pop();
    assert_eq!(refused(&message), Some(9));
    message.names.clear();
    assert_eq!(refused(&message), Some(9));
    let mut message = announcement(2, 5, 6);
    message.cues.push(C);
    assert_eq!(refused(&message), Some(9));
    message.cues.clear();
    message.names.push(message.names[0]);
    assert_eq!(refused(&message), Some(9));
}

/// "Over a sender's calls neither falls": a call whose kind 24 has a lower trail or lead than an earlier one is found, as is one whose lead is
/// not the last cue sent.
#[test]
fn what_is_announced_never_falls() {
    let mut end = member(0);
    let call = |event: Event, answer: Answer, out: Vec<u8>| Call {
        host: 0,
        event,
        answer,
        out,
        status: Status::Member,
    };
    let mut calls = vec![
        Call {
            status: Status::Joining,
            ..call(Event::Join, Answer::Done, vec![])
        },
        call(Event::Joined, Answer::Done, vec![]),
    ];
    for clock in 1..=2 {
        let out = send(&mut end, C, clock);
        calls.push(call(Event::Send(C), Answer::Out(out.len()), out));
    }
    let right = call(
        Event::Announce,
        Answer::Out(20),
        bytes(&announcement(0, 1, 1)),
    );
    calls.push(right);
    assert_eq!(check(&calls), Ok(()));
    for (trail, lead) in [(0, 1), (1, 2), (0, 0)] {
        let mut calls = calls.clone();
        let out = bytes(&announcement(0, trail, lead));
        calls.push(call(Event::Announce, Answer::Out(20), out));
        assert_eq!(check(&calls), Err((5, Fault::Announce)));
    }
}

/// Kind 24 does not count for the book's L: of a reader that missed 60 cues each may still come.
#[test]
fn kind_24_brings_no_highest_number() {
    let mut sender = member(0);
    let mut reader = member(1);
    let first = send(&mut sender, C, 1);
    act(&mut reader, &Event::Arrival(first), 1);
    for clock in 2..=100 {
        send(&mut sender, C, clock);
    }
    let announced = put_out(&mut sender, &Event::Announce, 101);
    let answer = act(&mut reader, &Event::Arrival(announced), 101);
    assert_eq!(answer, Answer::Done);
    let got = hear(&mut reader, &data(0, 1, C), 102);
    assert_eq!(
        got,
        Answer::Got {
            source: 0,
            number: 1
        }
    );
}
