//! Document 01's cases, in its order; the listing is in `house`.

use twin::cue::Cue;
use twin::end::{Answer, End, Event, Params, Status};
use twin::message::{self, Datagram};
use twin::{CLOCK_MAX, DRAWS, OUTPUT_LEN};

use crate::support::*;

#[test]
fn parameters() {
    // "Parameters 8,8,4,4,4,7: 13; 9,8,4,4,4,8 open; the last as 10: 13."
    assert_eq!(End::open(0, params([8, 8, 4, 4, 4, 7])).0, Some(13));
    assert_eq!(End::open(0, params([9, 8, 4, 4, 4, 8])).0, None);
    assert_eq!(End::open(0, params([9, 8, 4, 4, 4, 10])).0, Some(13));
}

#[test]
fn opening() {
    for host in 0..8 {
        let end = idle(host);
        assert_eq!((end.status, end.clock, end.next), (Status::Idle, 0, 0));
        assert_eq!(end.host, host);
        for (other, source) in end.sources.iter().enumerate() {
            let distance = if other == usize::from(host) { 0 } else { 40 };
            assert_eq!(source.distance, distance);
        }
        assert!(end.sound());
    }
    // 12 is asked before 13.
    for (host, p, number) in [
        (8, [9, 8, 4, 4, 4, 8], 12),
        (255, [99; 6], 12),
        (3, [33, 0, 0, 0, 0, 0], 13),
        (3, [255; 6], 13),
        // Each of the three constraints alone: C3 < C1, D1+D2+8 < 2×C1,
        // D1+D2+D3 < 2×C1.
        (3, [9, 8, 9, 4, 4, 8], 13),
        (3, [9, 8, 4, 5, 5, 0], 13),
        (3, [9, 8, 4, 0, 0, 18], 13),
    ] {
        let (refused, end) = End::open(host, params(p));
        assert_eq!(refused, Some(number));
        // "host 0's crashed end with parameters 9,8,4,4,4,8, otherwise fresh"
        let mut crashed = idle(0);
        crashed.status = Status::Crashed;
        assert_eq!(end, crashed);
        assert!(end.sound());
    }
    // Document 02, P8: "Opening with E above 1000 is refused as 14, checked after 13."
    for (host, p, e, number) in [
        (3, [9, 8, 4, 4, 4, 8], 1000, None),
        (3, [9, 8, 4, 4, 4, 8], 1001, Some(14)),
        (3, [9, 8, 4, 4, 4, 8], u16::MAX, Some(14)),
        (3, [9, 8, 9, 4, 4, 8], 1001, Some(13)),
        (8, [9, 8, 4, 4, 4, 8], 1001, Some(12)),
    ] {
        let opened = End::open(host, Params { e, ..params(p) });
        assert_eq!(opened.0, number);
        assert_eq!(opened.1.params.e, if number.is_none() { e } else { 0 });
        assert!(opened.1.sound());
    }
    for p in [
        [5, 0, 4, 1, 0, 8],
        [9, 32, 8, 4, 5, 8],
        [32, 32, 31, 32, 23, 8],
    ] {
        assert_eq!(End::open(7, params(p)).0, None);
    }
    assert_eq!(Params::STANDARD, params([9, 8, 4, 4, 4, 8]));
}

#[test]
fn focus() {
    // "Focus −2 is FF FE; −2001: 6 at Send, 10 on the wire."
    let cue = Cue::with_focus(-2);
    assert_eq!(cue.0[..2], [0xFF, 0xFE]);
    assert_eq!(cue.focus(), -2);
    let mut end = member(0);
    let sent = send(&mut end, cue, 0);
    assert_eq!(sent[14..16], [0xFF, 0xFE]);

    let beyond = Cue::with_focus(-2001);
    assert_eq!(act(&mut end, &Event::Send(beyond), 0), Answer::Refused(6));
    let mut wire = sent;
    wire[14..16].copy_from_slice(&(-2001i16).to_be_bytes());
    assert_eq!(read(&wire), Err(10));
    assert_eq!(
        act(&mut member(1), &Event::Arrival(wire), 0),
        Answer::Refused(10)
    );
}

#[test]
fn cue_fields() {
    // Each offset from −2000 to 2000, the lamp from 0 to 1000; the rest is free.
    for at in [0, 2, 4, 6] {
        for (value, good) in [
            (-32768, false),
            (-2001, false),
            (-2000, true),
            (-1, true),
            (0, true),
            (2000, true),
            (2001, false),
            (32767, false),
        ] {
            let mut cue = Cue([0xFF; 24]);
            cue.0[..10].fill(0);
            cue.0[at..at + 2].copy_from_slice(&i16::to_be_bytes(value));
            assert_eq!(cue.in_range(), good, "{value} at {at}");
            let fields = [cue.focus(), cue.zoom(), cue.sideways(), cue.upright()];
            assert_eq!(fields[at / 2], value);
        }
    }
    for (lamp, good) in [(0, true), (1000, true), (1001, false), (65535, false)] {
        let mut cue = Cue::ZERO;
        cue.0[8..10].copy_from_slice(&u16::to_be_bytes(lamp));
        assert_eq!((cue.lamp(), cue.in_range()), (lamp, good));
    }
}

#[test]
fn cue_65535_and_a_next_send() {
    // "Cue 63 is sent; a next send: 7."; P7: "Number 7 comes only at 65,536, in document 01's case after 65,535."
    let mut end = member(2);
    for number in 0..=65_535 {
        let read = read(&send(&mut end, Cue::ZERO, 5)).unwrap();
        assert_eq!(read.names[0].number, number);
    }
    assert_eq!(end.next, 65_536);
    assert_eq!(end.sources[2].missed, 0);
    assert_eq!(end.sources[2].first, Some(65_472));
    assert_eq!(
        act(&mut end, &Event::Send(Cue::ZERO), 5),
        Answer::Refused(7)
    );
    // "For a member": outside membership the same send is Ignored.
    assert_eq!(act(&mut end, &Event::Leave, 6), Answer::Done);
    assert_eq!(act(&mut end, &Event::Send(Cue::ZERO), 6), Answer::Ignored);
}

#[test]
fn empty_message() {
    // P5: "the case of the empty message reads "probe""
    assert_eq!(message::read(&[]), Ok(Datagram::Probe));
    let arrival = Event::Arrival(vec![]);
    let report = [20, 0, 0, 0, 0, 0, 0, 3, 0, 0, 0, 0];
    assert_eq!(put_out(&mut member(0), &arrival, 3), report);
}

#[test]
fn lamp() {
    // "Lamp 1000 is sent; 1001: 6."
    let mut cue = Cue::ZERO;
    cue.0[8..10].copy_from_slice(&1000u16.to_be_bytes());
    send(&mut member(0), cue, 0);
    cue.0[8..10].copy_from_slice(&1001u16.to_be_bytes());
    assert_eq!(
        act(&mut member(0), &Event::Send(cue), 0),
        Answer::Refused(6)
    );
}

#[test]
fn buffers() {
    // "Output of 127 bytes: 1. 63 or 65 draws: 2."
    let mut end = member(0);
    let mut ask = |draws: usize, output: usize| {
        watched(&mut end, &Event::Report, 0, &vec![0; draws], output).0
    };
    assert_eq!(ask(DRAWS, 127), Answer::Refused(1));
    assert_eq!(ask(63, OUTPUT_LEN), Answer::Refused(2));
    assert_eq!(ask(65, OUTPUT_LEN), Answer::Refused(2));
    assert_eq!(ask(DRAWS, OUTPUT_LEN), Answer::Out(12));
    assert_eq!(ask(DRAWS, 1000), Answer::Out(12));
}

#[test]
fn clocks() {
    // "Clock 2^48−1 is taken; 2^48: 4; one below the state's: 5."
    let mut end = member(0);
    assert_eq!(act(&mut end, &Event::Fire, CLOCK_MAX), Answer::Nothing);
    assert_eq!(
        act(&mut end, &Event::Fire, CLOCK_MAX + 1),
        Answer::Refused(4)
    );
    assert_eq!(
        act(&mut end, &Event::Fire, CLOCK_MAX - 1),
        Answer::Refused(5)
    );
    assert_eq!(act(&mut end, &Event::Fire, CLOCK_MAX), Answer::Nothing);
}

#[test]
fn fresh_report() {
    // "Fresh member's Report: 12 bytes."
    let sent = put_out(&mut member(3), &Event::Report, 0x0102);
    assert_eq!(sent, [20, 3, 0, 0, 0, 0, 1, 2, 0, 0, 0, 0]);
}

#[test]
fn request_bytes() {
    // "RQST of end 1 at clock 392 for name 0,1: hexadecimal 02 01 00 00 00 00 01
    // 88 01 00 01 01 00 00 00.", by P7 "one of reading"
    let case = [2, 1, 0, 0, 0, 0, 1, 0x88, 1, 0, 1, 1, 0, 0, 0];
    let mut end = member(1);
    hear(&mut end, &data(0, 0, Cue::ZERO), 12);
    hear(&mut end, &data(0, 2, Cue::ZERO), 32);
    assert_eq!(act(&mut end, &Event::Fire, 391), Answer::Nothing);
    let sent = put_out(&mut end, &Event::Fire, 392);
    assert_eq!(sent, [18, 1, 0, 0, 0, 0, 1, 0x88, 1, 0, 0, 1, 1, 0, 0, 0]);
    assert_eq!(read(&case), read(&sent));
}

#[test]
fn echoes_set_distances() {
    // "e = 80 gives 10 ms; e = 0 gives 1."; P2: "So e = 87 gives 11, e = 80 still 10."
    for (e, distance) in [
        (80, 10),
        (0, 1),
        (7, 1),
        (8, 1),
        (9, 2),
        (15, 2),
        (16, 2),
        (87, 11),
        (88, 11),
        (7992, 999),
        (7993, 1000),
        (8000, 1000),
        (1 << 40, 1000),
    ] {
        let mut end = member(1);
        let clock = 150 + e;
        let echo = sess(4, 9, &[], &[(1, 100, 50)]);
        assert_eq!(hear(&mut end, &echo, clock), Answer::Done);
        assert_eq!(end.sources[4].distance, distance, "e = {e}");
    }
}
