//! Openings, soundness, the questions, the events and the listing.

use twin::cue::Cue;
use twin::end::{
    Answer, Body, End, Event, Heard, Params, Record, Reply, Request, Status, TIME_LIMIT,
};
use twin::message::{self, Echo, Message, Name, Report, DATA, REPL, RQST, SESS};
use twin::{Draw, CLOCK_MAX};

const UNTOUCHED: u8 = 0xA5;

fn params(all: [u8; 6]) -> Params {
    let [c1, c2, c3, d1, d2, d3] = all;
    Params {
        c1,
        c2,
        c3,
        d1,
        d2,
        d3,
        e: 0,
    }
}

fn opened(host: u8) -> End {
    let (refused, end) = End::open(host, Params::STANDARD);
    assert_eq!(refused, None);
    end
}

fn with_status(host: u8, status: Status) -> End {
    End {
        status,
        ..opened(host)
    }
}

fn member(host: u8) -> End {
    with_status(host, Status::Member)
}

/// An event with the same draw everywhere, and the bytes it wrote.
fn step(end: &mut End, event: Event, clock: u64, draw: Draw) -> (Answer, Vec<u8>) {
    stepped(end, &event, clock, &[draw; 64])
}

fn stepped(end: &mut End, event: &Event, clock: u64, draws: &[Draw]) -> (Answer, Vec<u8>) {
    let before = end.clone();
    let mut out = [UNTOUCHED; 130];
    let answer = end.event(event, clock, draws, &mut out);
    let written = match answer {
        Answer::Out(len) => len,
        Answer::Got { .. } => 24,
        _ => 0,
    };
    assert!(out[written..].iter().all(|&byte| byte == UNTOUCHED));
    if let Answer::Refused(_) = answer {
        assert_eq!(*end, before);
    } else {
        assert!(end.sound());
    }
    (answer, out[..written].to_vec())
}

fn hear(end: &mut End, message: &Message, clock: u64, draw: Draw) -> Answer {
    step(end, Event::Arrival(bytes(message)), clock, draw).0
}

fn bytes(message: &Message) -> Vec<u8> {
    let mut out = [0; 128];
    let len = message::write(message, &mut out).unwrap();
    out[..len].to_vec()
}

/// The reader on what must not be a probe.
fn read(bytes: &[u8]) -> Result<Message, u8> {
    message::read(bytes).map(|read| read.message().expect("no probe"))
}

fn session(sender: u8, stamp: u64, reports: Vec<Report>, echoes: Vec<Echo>) -> Message {
    Message {
        kind: SESS,
        sender,
        stamp,
        names: vec![],
        cues: vec![],
        reports,
        echoes,
    }
}

fn about(kind: u8, sender: u8, name: (u8, u16, u8), cue: Option<Cue>) -> Message {
    let (source, number, host) = name;
    Message {
        kind,
        names: vec![Name {
            source,
            number,
            host,
        }],
        cues: cue.into_iter().collect(),
        ..session(sender, 0, vec![], vec![])
    }
}

fn data(source: u8, number: u16) -> Message {
    about(
        DATA,
        source,
        (source, number, source),
        Some(Cue::with_focus(number as i16)),
    )
}

fn rqst(source: u8, number: u16, requester: u8) -> Message {
    about(RQST, requester, (source, number, requester), None)
}

fn repl(sender: u8, source: u8, number: u16, requester: u8) -> Message {
    let cue = Some(Cue::with_focus(number as i16));
    about(REPL, sender, (source, number, requester), cue)
}

fn got(source: u8, number: u16) -> Answer {
    Answer::Got { source, number }
}

fn waiting(round: u8, due: u64, quiet_until: u64) -> Body {
    Body::Waiting(Request {
        round,
        due,
        quiet_until,
        express: None,
    })
}

fn record(end: &mut End, source: usize, number: usize) -> &mut Record {
    &mut end.sources[source].names[number]
}

fn span(end: &End, source: usize) -> (Option<u16>, Option<u16>) {
    (end.sources[source].first, end.sources[source].last)
}

/// Member 1 that holds 2 of source 0, waits for 3 and holds 4.
fn holder() -> End {
    let mut end = member(1);
    assert_eq!(hear(&mut end, &data(0, 2), 10, 0), got(0, 2));
    assert_eq!(hear(&mut end, &data(0, 4), 20, 0), got(0, 4));
    end
}

#[test]
fn openings() {
    for (all, number) in [
        ([9, 8, 4, 4, 4, 8], None),
        ([8, 8, 4, 4, 4, 7], Some(13)),
        ([9, 8, 4, 4, 4, 10], Some(13)),
        ([9, 8, 4, 4, 4, 9], None),
        ([9, 8, 9, 4, 4, 8], Some(13)),
        ([9, 8, 8, 4, 4, 8], None),
        ([32, 32, 31, 32, 0, 31], None),
        ([33, 8, 4, 4, 4, 8], Some(13)),
        ([9, 33, 4, 4, 4, 8], Some(13)),
        ([255; 6], Some(13)),
    ] {
        let (refused, end) = End::open(7, params(all));
        assert_eq!(refused, number, "{all:?}");
        assert!(end.sound());
        if number.is_some() {
            assert_eq!(end, with_status(0, Status::Crashed));
        } else {
            assert_eq!(
                (end.host, end.params, end.status),
                (7, params(all), Status::Idle)
            );
            assert_eq!((end.clock, end.next), (0, 0));
        }
    }
    assert_eq!(
        End::open(8, params([255; 6])),
        (Some(12), with_status(0, Status::Crashed))
    );
}

#[test]
fn fresh_sources() {
    let end = opened(3);
    for (host, source) in end.sources.iter().enumerate() {
        assert_eq!(source.distance, if host == 3 { 0 } else { 40 });
        assert_eq!(
            (source.first, source.last, source.heard),
            (None, None, None)
        );
        assert_eq!(source.names, [Record::EMPTY; 64]);
    }
}

#[test]
fn the_listing() {
    let script: [(usize, Event, u64, Answer); 14] = [
        (0, Event::Join, 0, Answer::Done),
        (0, Event::Joined, 0, Answer::Done),
        (1, Event::Join, 0, Answer::Done),
        (1, Event::Joined, 0, Answer::Done),
        (0, Event::Send(Cue::with_focus(-2)), 10, Answer::Out(40)),
        (1, Event::Arrival(vec![0]), 12, got(0, 0)),
        (0, Event::Send(Cue::with_focus(-2)), 20, Answer::Out(40)),
        (0, Event::Send(Cue::with_focus(-2)), 30, Answer::Out(40)),
        (1, Event::Arrival(vec![2]), 32, got(0, 2)),
        (1, Event::Fire, 391, Answer::Nothing),
        (1, Event::Fire, 392, Answer::Out(16)),
        (0, Event::Arrival(vec![3]), 400, Answer::Done),
        (0, Event::Fire, 560, Answer::Out(40)),
        (1, Event::Arrival(vec![4]), 570, got(0, 1)),
    ];
    let mut ends = [opened(0), opened(1)];
    let mut messages: Vec<Vec<u8>> = vec![];
    for (host, mut event, clock, expected) in script {
        if let Event::Arrival(number) = &event {
            event = Event::Arrival(messages[usize::from(number[0])].clone());
        }
        let (answer, out) = step(&mut ends[host], event, clock, 0);
        assert_eq!(answer, expected);
        match answer {
            Answer::Out(_) => messages.push(out),
            Answer::Got { .. } => assert_eq!(out, Cue::with_focus(-2).0),
            _ => {}
        }
    }
    assert_eq!(
        messages[3],
        [18, 1, 0, 0, 0, 0, 1, 0x88, 1, 0, 0, 1, 1, 0, 0, 0]
    );
    assert_eq!(
        messages[4][..13],
        [19, 0, 0, 0, 0, 0, 2, 0x30, 1, 0, 0, 1, 1]
    );
}

#[test]
fn questions_1_to_5_in_order() {
    let event = Event::Send(Cue::with_focus(-2001));
    let mut end = End {
        clock: 10,
        ..member(0)
    };
    let unsound = End {
        next: 65_537,
        ..end.clone()
    };
    let ask = |end: &End, clock, draws: usize, out: usize| {
        let (mut asked, mut buffer) = (end.clone(), vec![1; out]);
        let answer = asked.event(&event, clock, &vec![0; draws], &mut buffer);
        assert_eq!((&asked, buffer), (end, vec![1; out]));
        answer
    };
    assert_eq!(ask(&unsound, 1 << 48, 63, 127), Answer::Refused(1));
    assert_eq!(ask(&unsound, 1 << 48, 63, 128), Answer::Refused(2));
    assert_eq!(ask(&unsound, 1 << 48, 65, 128), Answer::Refused(2));
    assert_eq!(ask(&unsound, 1 << 48, 64, 128), Answer::Refused(3));
    assert_eq!(ask(&end, 1 << 48, 64, 128), Answer::Refused(4));
    assert_eq!(ask(&end, 9, 64, 128), Answer::Refused(5));
    assert_eq!(ask(&end, 10, 64, 128), Answer::Refused(6));
    assert_eq!(step(&mut end, Event::Fire, CLOCK_MAX, 0).0, Answer::Nothing);
    assert_eq!(end.clock, CLOCK_MAX);
}

#[test]
fn questions_6_to_11_in_any_status() {
    let all = [
        Status::Idle,
        Status::Joining,
        Status::Member,
        Status::Leaving,
        Status::Crashed,
    ];
    for status in all {
        let mut end = End {
            next: 65_536,
            ..with_status(0, status)
        };
        let bad = Event::Send(Cue::with_focus(-2001));
        assert_eq!(step(&mut end, bad, 1, 0).0, Answer::Refused(6));
        let full = if status == Status::Member {
            Answer::Refused(7)
        } else {
            Answer::Ignored
        };
        assert_eq!(step(&mut end, Event::Send(Cue::ZERO), 1, 0).0, full);
        assert_eq!(
            step(&mut end, Event::Arrival(vec![4]), 2, 0).0,
            Answer::Refused(8)
        );
        let mut looped = bytes(&data(0, 0));
        looped[14..16].copy_from_slice(&i16::to_be_bytes(-2001));
        assert_eq!(
            step(&mut end, Event::Arrival(looped), 2, 0).0,
            Answer::Refused(10)
        );
    }
}

#[test]
fn lamp_at_send() {
    let mut end = member(0);
    for (lamp, answer) in [(1000u16, Answer::Out(40)), (1001, Answer::Refused(6))] {
        let mut cue = Cue::ZERO;
        cue.0[8..10].copy_from_slice(&lamp.to_be_bytes());
        assert_eq!(step(&mut end, Event::Send(cue), 0, 0).0, answer);
    }
}

#[test]
fn statuses() {
    use Status::*;
    let events = [
        Event::Join,
        Event::Joined,
        Event::Leave,
        Event::Left,
        Event::Crash,
    ];
    let moves = [
        (Idle, [Some(Joining), None, None, None, Some(Crashed)]),
        (
            Joining,
            [None, Some(Member), Some(Leaving), None, Some(Crashed)],
        ),
        (Member, [None, None, Some(Leaving), None, Some(Crashed)]),
        (Leaving, [None, None, None, Some(Idle), Some(Crashed)]),
        (Crashed, [None, None, None, None, None]),
    ];
    for (status, afters) in moves {
        for (event, after) in events.iter().zip(afters) {
            assert_eq!(status.after(event), after);
            let mut end = with_status(2, status);
            let answer = if after.is_some() {
                Answer::Done
            } else {
                Answer::Ignored
            };
            assert_eq!(step(&mut end, event.clone(), 5, 0).0, answer);
            let clock = if status == Crashed { 0 } else { 5 };
            assert_eq!(
                end,
                End {
                    clock,
                    ..with_status(2, after.unwrap_or(status))
                }
            );
        }
        for event in [
            Event::Send(Cue::ZERO),
            Event::Fire,
            Event::Report,
            Event::Arrival(vec![]),
        ] {
            assert_eq!(status.after(&event), None);
        }
    }
}

#[test]
fn outside_membership() {
    let arrival = Event::Arrival(bytes(&data(1, 0)));
    for status in [
        Status::Idle,
        Status::Joining,
        Status::Leaving,
        Status::Crashed,
    ] {
        for event in [
            Event::Send(Cue::ZERO),
            Event::Fire,
            Event::Report,
            arrival.clone(),
        ] {
            let mut end = with_status(0, status);
            assert_eq!(step(&mut end, event, 5, 0).0, Answer::Ignored);
            let clock = if status == Status::Crashed { 0 } else { 5 };
            assert_eq!(
                end,
                End {
                    clock,
                    ..with_status(0, status)
                }
            );
        }
    }
}

#[test]
fn own_arrival_sets_only_the_clock() {
    let mut end = member(0);
    assert_eq!(hear(&mut end, &data(0, 5), 9, 0), Answer::Ignored);
    assert_eq!(
        hear(&mut end, &session(0, 3, vec![], vec![]), 9, 0),
        Answer::Ignored
    );
    assert_eq!(
        end,
        End {
            clock: 9,
            ..member(0)
        }
    );
}

#[test]
fn leave_and_crash_clear() {
    for (event, status) in [
        (Event::Leave, Status::Leaving),
        (Event::Crash, Status::Crashed),
    ] {
        let mut end = holder();
        let echo = Echo {
            host: 1,
            stamp: 0,
            held: 0,
        };
        assert_eq!(
            step(&mut end, Event::Send(Cue::ZERO), 20, 0).0,
            Answer::Out(40)
        );
        assert_eq!(
            hear(&mut end, &session(0, 3, vec![], vec![echo]), 80, 0),
            Answer::Done
        );
        assert_eq!(end.sources[0].distance, 10);
        assert_eq!(step(&mut end, event, 90, 0).0, Answer::Done);
        assert_eq!(
            end,
            End {
                clock: 90,
                next: 1,
                ..with_status(1, status)
            }
        );
    }
}

#[test]
fn the_own_number_goes_on_after_leave() {
    let mut end = member(0);
    let send = || Event::Send(Cue::ZERO);
    step(&mut end, send(), 0, 0);
    for event in [Event::Leave, Event::Left, Event::Join, Event::Joined] {
        assert_eq!(step(&mut end, event, 1, 0).0, Answer::Done);
    }
    let (_, out) = step(&mut end, send(), 2, 0);
    assert_eq!(out[9..13], [0, 0, 1, 0]);
    assert_eq!((span(&end, 0), end.next), ((Some(1), Some(1)), 2));
}

#[test]
fn a_season_of_sends() {
    let mut end = member(3);
    for number in 0..=65_535 {
        let cue = Cue::with_focus((number % 2000) as i16);
        let (answer, out) = step(&mut end, Event::Send(cue), 7, 0);
        assert_eq!(answer, Answer::Out(40));
        let sent = read(&out).unwrap();
        let expected = about(DATA, 3, (3, number, 3), Some(cue));
        assert_eq!(
            sent,
            Message {
                stamp: 7,
                ..expected
            }
        );
        // "first becomes the greater of itself and L−63"
        let first = number.saturating_sub(63);
        assert_eq!(span(&end, 3), (Some(first), Some(number)));
        assert_eq!(end.sources[3].missed, 0);
    }
    assert_eq!(
        step(&mut end, Event::Send(Cue::ZERO), 8, 0).0,
        Answer::Refused(7)
    );
    assert_eq!((end.next, end.clock), (65_536, 7));
}

#[test]
fn data_opens_fills_and_is_ignored() {
    let mut end = holder();
    assert_eq!(span(&end, 0), (Some(2), Some(4)));
    assert_eq!(record(&mut end, 0, 3).body, waiting(1, 20 + 360, 20 + 160));
    let before = end.clone();
    for number in [0, 1, 2, 4] {
        assert_eq!(hear(&mut end, &data(0, number), 30, 0), Answer::Ignored);
    }
    assert_eq!(
        end,
        End {
            clock: 30,
            ..before
        }
    );
    assert_eq!(hear(&mut end, &data(0, 3), 31, 0), got(0, 3));
    assert_eq!(
        *record(&mut end, 0, 3),
        Record {
            body: Body::Held,
            cue: Cue::with_focus(3),
            ..Record::EMPTY
        }
    );
    assert_eq!(span(&end, 0), (Some(2), Some(4)));
}

#[test]
fn draws_are_taken_at_the_cue_number() {
    let mut end = holder();
    let draws: Vec<Draw> = (0..64).map(|number| number * 1000).collect();
    let arrival = Event::Arrival(bytes(&data(0, 63)));
    assert_eq!(stepped(&mut end, &arrival, 100, &draws).0, got(0, 63));
    for number in 5..63 {
        let due = 100 + 360 + 320 * (number * 1000) / 65535;
        assert_eq!(
            record(&mut end, 0, number as usize).body,
            waiting(1, due, 260)
        );
    }
}

#[test]
fn request_first_line() {
    let mut end = holder();
    let before = end.clone();
    assert_eq!(hear(&mut end, &rqst(3, 0, 2), 30, 0), Answer::Ignored);
    assert_eq!(hear(&mut end, &rqst(0, 1, 2), 30, 0), Answer::Ignored);
    assert_eq!(hear(&mut end, &rqst(1, 0, 2), 30, 0), Answer::Ignored);
    assert_eq!(
        end,
        End {
            clock: 30,
            ..before
        }
    );
    step(&mut end, Event::Send(Cue::ZERO), 30, 0);
    assert_eq!(hear(&mut end, &rqst(1, 1, 2), 30, 0), Answer::Ignored);
    assert_eq!(hear(&mut end, &rqst(1, 0, 2), 30, 0), Answer::Done);
}

#[test]
fn request_for_a_held_cue() {
    let mut end = holder();
    end.sources[2].distance = 7;
    record(&mut end, 0, 4).reply_quiet = 100;
    assert_eq!(hear(&mut end, &rqst(0, 4, 2), 99, 51_400), Answer::Ignored);
    assert_eq!(record(&mut end, 0, 4).reply, None);
    assert_eq!(hear(&mut end, &rqst(0, 4, 2), 100, 51_400), Answer::Done);
    // 28 × 51400 = 1439200 is 21 × 65535 and 62965 more.
    let reply = Reply {
        due: 100 + 4 * 7 + 21,
        requester: 2,
    };
    assert_eq!(record(&mut end, 0, 4).reply, Some(reply));
    assert_eq!(hear(&mut end, &rqst(0, 4, 3), 101, 51_400), Answer::Ignored);
    assert_eq!(record(&mut end, 0, 4).reply, Some(reply));
}

#[test]
fn request_above_last() {
    let mut end = holder();
    end.sources[2].distance = 7;
    assert_eq!(hear(&mut end, &rqst(0, 6, 2), 100, 65535), Answer::Done);
    assert_eq!(
        record(&mut end, 0, 5).body,
        waiting(1, 100 + 360 + 320, 100 + 160)
    );
    assert_eq!(
        record(&mut end, 0, 6).body,
        waiting(2, 100 + 720 + 640, 100 + 320)
    );
    assert_eq!(span(&end, 0), (Some(2), Some(6)));
}

#[test]
fn request_for_a_waiting_name() {
    let mut end = holder();
    assert_eq!(hear(&mut end, &rqst(0, 3, 2), 180, 0), Answer::Ignored);
    assert_eq!(record(&mut end, 0, 3).body, waiting(1, 380, 180));
    assert_eq!(hear(&mut end, &rqst(0, 3, 2), 181, 0), Answer::Done);
    assert_eq!(
        record(&mut end, 0, 3).body,
        waiting(2, 181 + 720, 181 + 320)
    );
}

#[test]
fn the_last_round_at_the_last_clock() {
    let mut end = End {
        params: params([32, 32, 31, 0, 0, 0]),
        ..holder()
    };
    end.sources[0].distance = 1000;
    record(&mut end, 0, 3).body = waiting(16, TIME_LIMIT - 1, 0);
    assert_eq!(
        hear(&mut end, &rqst(0, 3, 2), CLOCK_MAX, 65535),
        Answer::Done
    );
    let long = (1 << 15) * 32 * 1000;
    let quiet = (1 << 15) * 31 * 1000;
    assert_eq!(
        record(&mut end, 0, 3).body,
        waiting(16, CLOCK_MAX + 2 * long, CLOCK_MAX + quiet)
    );
    record(&mut end, 0, 3).body = waiting(15, 5, 0);
    assert_eq!(
        step(&mut end, Event::Fire, CLOCK_MAX, 65534).0,
        Answer::Out(16)
    );
    // 1048576000 / 65535 is 16000 and a part: so much and that part is missing.
    let due = CLOCK_MAX + long + long - 16_001;
    assert_eq!(
        record(&mut end, 0, 3).body,
        waiting(16, due, CLOCK_MAX + quiet)
    );
}

#[test]
fn repair_first_line() {
    let mut end = holder();
    let before = end.clone();
    assert_eq!(hear(&mut end, &repl(2, 3, 0, 4), 30, 0), Answer::Ignored);
    assert_eq!(hear(&mut end, &repl(2, 0, 1, 4), 30, 0), Answer::Ignored);
    assert_eq!(hear(&mut end, &repl(2, 1, 0, 4), 30, 0), Answer::Ignored);
    assert_eq!(
        end,
        End {
            clock: 30,
            ..before
        }
    );
}

#[test]
fn repair_not_held() {
    let mut end = holder();
    assert_eq!(hear(&mut end, &repl(2, 0, 3, 1), 30, 0), got(0, 3));
    let held = |number, reply_quiet| Record {
        body: Body::Held,
        cue: Cue::with_focus(number),
        reply: None,
        reply_quiet,
    };
    assert_eq!(
        *record(&mut end, 0, 3),
        held(3, 30),
        "the requester is oneself, at 0"
    );
    end.sources[4].distance = 5;
    assert_eq!(hear(&mut end, &repl(2, 0, 7, 4), 40, 0), got(0, 7));
    assert_eq!(*record(&mut end, 0, 7), held(7, 40 + 8 * 5));
    assert_eq!(span(&end, 0), (Some(2), Some(7)));
    for number in [5, 6] {
        assert_eq!(
            record(&mut end, 0, number).body,
            waiting(1, 40 + 360, 40 + 160)
        );
    }
}

#[test]
fn repair_held() {
    let mut end = holder();
    end.sources[5].distance = 9;
    assert_eq!(hear(&mut end, &rqst(0, 4, 2), 30, 0), Answer::Done);
    assert_eq!(hear(&mut end, &repl(3, 0, 4, 5), 40, 0), Answer::Done);
    let expected = Record {
        body: Body::Held,
        cue: Cue::with_focus(4),
        reply: None,
        reply_quiet: 40 + 8 * 9,
    };
    assert_eq!(*record(&mut end, 0, 4), expected);
    // With other bytes, document 02, P4: "apart from the clock nothing changes".
    let mut other = repl(3, 0, 4, 5);
    other.cues[0] = Cue::with_focus(77);
    let clash = Answer::Clash {
        source: 0,
        number: 4,
    };
    assert_eq!(hear(&mut end, &other, 41, 0), clash);
    assert_eq!(*record(&mut end, 0, 4), expected);
    assert_eq!(end.clock, 41);
}

#[test]
fn session_reports_use_the_distance_before_the_echo() {
    let mut end = holder();
    step(&mut end, Event::Send(Cue::ZERO), 20, 0);
    let reports = [(0, 6), (1, 9), (2, 5)].map(|(source, last)| Report { source, last });
    let echo = Echo {
        host: 1,
        stamp: 10,
        held: 10,
    };
    let heard = session(0, 1234, reports.to_vec(), vec![echo]);
    assert_eq!(hear(&mut end, &heard, 100, 0), Answer::Done);
    for number in [5, 6] {
        assert_eq!(
            record(&mut end, 0, number).body,
            waiting(1, 100 + 360, 100 + 160)
        );
    }
    assert_eq!(span(&end, 0), (Some(2), Some(6)));
    assert_eq!(span(&end, 1), (Some(0), Some(0)), "one's own source");
    assert_eq!(span(&end, 2), (None, None), "not opened");
    assert_eq!(end.sources[0].distance, 10);
    assert_eq!(
        end.sources[0].heard,
        Some(Heard {
            stamp: 1234,
            at: 100,
            // P9: the sources reported, 0, 1 and 2.
            sources: 0b111,
        })
    );
    assert_eq!(
        hear(&mut end, &session(0, 1, vec![], vec![]), 101, 0),
        Answer::Done
    );
    assert_eq!(
        end.sources[0].heard,
        Some(Heard {
            stamp: 1,
            at: 101,
            sources: 0
        })
    );
}

#[test]
fn session_echoes() {
    for (clock, stamp, held, distance) in [
        (100, 10, 10, 10),
        (100, 10, 3, 11),
        (100, 10, 90, 1),
        (100, 10, 91, 40),
        (100, 101, 0, 40),
        (100, CLOCK_MAX, CLOCK_MAX, 40),
        (8007, 0, 0, 1000),
        (CLOCK_MAX, 0, 0, 1000),
    ] {
        let mut end = member(1);
        let other = Echo {
            host: 0,
            stamp: 0,
            held: 0,
        };
        let echoes = vec![
            other,
            Echo {
                host: 1,
                stamp,
                held,
            },
        ];
        assert_eq!(
            hear(&mut end, &session(6, 0, vec![], echoes), clock, 0),
            Answer::Done
        );
        assert_eq!(end.sources[6].distance, distance);
        assert_eq!((end.sources[0].distance, end.sources[1].distance), (40, 0));
    }
}

/// "The distance is now the least whole number of milliseconds that is at least e/8, then
/// brought into 1..1000. So e = 87 gives 11, e = 80 still 10."
#[test]
fn half_trips_are_rounded_up() {
    let all = (0..=8100).chain([CLOCK_MAX - 1, CLOCK_MAX]);
    for e in all {
        let mut end = member(1);
        let (host, stamp, held) = (1, CLOCK_MAX - e, 0);
        let heard = session(6, 0, vec![], vec![Echo { host, stamp, held }]);
        assert_eq!(hear(&mut end, &heard, CLOCK_MAX, 0), Answer::Done);
        let distance = end.sources[6].distance;
        let least = (0..1000).find(|ms| 8 * ms >= e).unwrap_or(1000);
        assert_eq!(distance, least.max(1), "e = {e}");
        match e {
            87 => assert_eq!(distance, 11),
            80 => assert_eq!(distance, 10),
            0 | 1 | 8 => assert_eq!(distance, 1),
            9 => assert_eq!(distance, 2),
            7993.. => assert_eq!(distance, 1000),
            _ => {}
        }
    }
}

#[test]
fn reports() {
    let mut end = member(1);
    let (answer, out) = step(&mut end, Event::Report, 3, 0);
    assert_eq!(
        (answer, out),
        (Answer::Out(12), vec![20, 1, 0, 0, 0, 0, 0, 3, 0, 0, 0, 0])
    );
    let mut end = holder();
    step(&mut end, Event::Send(Cue::ZERO), 20, 0);
    hear(&mut end, &session(5, 77, vec![], vec![]), 30, 0);
    hear(&mut end, &session(0, 88, vec![], vec![]), 40, 0);
    let (_, out) = step(&mut end, Event::Report, 100, 0);
    let reports = [(0, 4), (1, 0)].map(|(source, last)| Report { source, last });
    let echoes = [(0, 88, 60), (5, 77, 70)].map(|(host, stamp, held)| Echo { host, stamp, held });
    assert_eq!(
        read(&out),
        Ok(session(1, 100, reports.to_vec(), echoes.to_vec()))
    );
}

#[test]
fn fire_takes_the_earliest() {
    let mut end = member(1);
    for (source, number) in [(0, 0), (0, 2), (2, 0), (2, 3)] {
        hear(&mut end, &data(source, number), 0, 0);
    }
    let reply = |due| Some(Reply { due, requester: 3 });
    record(&mut end, 0, 0).reply = reply(50);
    record(&mut end, 0, 2).reply = reply(50);
    record(&mut end, 2, 0).reply = reply(49);
    record(&mut end, 0, 1).body = waiting(3, 51, 0);
    record(&mut end, 2, 1).body = waiting(1, 50, 0);
    record(&mut end, 2, 2).body = waiting(1, 50, 0);
    let mut fired = vec![];
    while let (Answer::Out(_), out) = step(&mut end, Event::Fire, 51, 0) {
        let message = read(&out).unwrap();
        let Name {
            source,
            number,
            host,
        } = message.names[0];
        fired.push((message.kind, source, number, host));
        assert_eq!((message.sender, message.stamp), (1, 51));
        assert!(message
            .cues
            .iter()
            .all(|cue| *cue == Cue::with_focus(number as i16)));
    }
    let expected = [
        (REPL, 2, 0, 3),
        (RQST, 2, 1, 1),
        (RQST, 2, 2, 1),
        (REPL, 0, 0, 3),
        (REPL, 0, 2, 3),
        (RQST, 0, 1, 1),
    ];
    assert_eq!(fired, expected);
    assert_eq!(
        record(&mut end, 0, 1).body,
        waiting(4, 51 + 8 * 360, 51 + 8 * 160)
    );
    let replied = *record(&mut end, 0, 2);
    assert_eq!((replied.reply, replied.reply_quiet), (None, 51 + 320));
}

/// Is `holder()`, with one thing changed, sound?
fn sound_with(change: impl FnOnce(&mut End)) -> bool {
    let mut end = holder();
    assert_eq!(
        step(&mut end, Event::Send(Cue::ZERO), 20, 0).0,
        Answer::Out(40)
    );
    change(&mut end);
    end.sound()
}

#[test]
fn sound_fields() {
    assert!(sound_with(|_| ()));
    assert!(!sound_with(|end| end.host = 8));
    assert!(!sound_with(|end| end.host = 255));
    assert!(
        sound_with(|end| end.params = params([32; 6])),
        "in range is all that is asked"
    );
    for at in 0..6 {
        let mut all = [32; 6];
        all[at] = 33;
        assert!(!sound_with(|end| end.params = params(all)));
    }
    assert!(sound_with(|end| end.clock = CLOCK_MAX));
    assert!(!sound_with(|end| end.clock = CLOCK_MAX + 1));
    assert!(!sound_with(|end| end.next = 2), "own last is next-1");
    assert!(!sound_with(|end| end.next = 0));
    for (next, sound) in [
        (0, true),
        (64, true),
        (65_536, true),
        (65_537, false),
        (u32::MAX, false),
    ] {
        assert_eq!(End { next, ..member(0) }.sound(), sound);
    }
    for (distance, sound) in [(0, false), (1, true), (1000, true), (1001, false)] {
        assert_eq!(sound_with(|end| end.sources[7].distance = distance), sound);
    }
    assert!(!sound_with(|end| end.sources[1].distance = 1));
}

#[test]
fn sound_spans() {
    assert!(!sound_with(|end| end.sources[0].first = None));
    assert!(!sound_with(|end| end.sources[0].last = None));
    assert!(!sound_with(|end| (
        end.sources[3].first,
        end.sources[3].last
    ) = (Some(0), Some(0))));
    assert!(!sound_with(|end| end.sources[0].first = Some(3)));
    assert!(!sound_with(|end| end.sources[0].last = Some(3)));
    assert!(!sound_with(|end| end.sources[0].last = Some(5)));
    assert!(!sound_with(|end| end.sources[0].first = Some(1)));
    assert!(!sound_with(|end| {
        end.sources[0] = end.sources[3];
        (end.sources[0].first, end.sources[0].last) = (Some(2), Some(1));
        end.sources[0].origin = Some(1);
    }));
    let full = |end: &mut End, last| {
        end.sources[0].names = [Record {
            body: Body::Held,
            ..Record::EMPTY
        }; 64];
        (end.sources[0].first, end.sources[0].last) = (Some(0), Some(last));
        end.sources[0].origin = Some(0);
    };
    assert!(sound_with(|end| full(end, 63)));
    assert!(!sound_with(|end| full(end, 64)));
    assert!(!sound_with(|end| full(end, 255)));
}

#[test]
fn sound_names() {
    let far = TIME_LIMIT - 1;
    assert!(!sound_with(|end| record(end, 0, 5).reply_quiet = 1));
    assert!(sound_with(|end| record(end, 0, 4).reply_quiet = far));
    assert!(sound_with(|end| record(end, 0, 3).reply_quiet = far));
    assert!(!sound_with(|end| record(end, 0, 4).reply_quiet = far + 1));
    assert!(!sound_with(|end| record(end, 0, 4).body = Body::Nothing));
    assert!(!sound_with(
        |end| record(end, 0, 4).cue = Cue::with_focus(2001)
    ));
    assert!(sound_with(
        |end| record(end, 0, 3).cue = Cue::with_focus(2001)
    ));
    assert!(sound_with(
        |end| record(end, 0, 9).cue = Cue::with_focus(2001)
    ));
    assert!(!sound_with(|end| record(end, 1, 0).body = waiting(1, 0, 0)));
    for (round, due, quiet, sound) in [
        (1, far, far, true),
        (16, 0, 0, true),
        (0, 0, 0, false),
        (17, 0, 0, false),
        (1, far + 1, 0, false),
        (1, 0, far + 1, false),
        (255, u64::MAX, u64::MAX, false),
    ] {
        assert_eq!(
            sound_with(|end| record(end, 0, 3).body = waiting(round, due, quiet)),
            sound
        );
    }
}

#[test]
fn sound_replies() {
    let far = TIME_LIMIT - 1;
    let with = |source, number, due, requester| {
        sound_with(|end| record(end, source, number).reply = Some(Reply { due, requester }))
    };
    assert!(with(0, 4, far, 2));
    assert!(with(1, 0, far, 0));
    assert!(!with(0, 4, far + 1, 2));
    assert!(!with(0, 4, 0, 0), "the source");
    assert!(!with(0, 4, 0, 1), "oneself");
    assert!(!with(0, 4, 0, 8));
    assert!(!with(0, 3, 0, 2), "not held");
    assert!(!with(0, 5, 0, 2), "outside");
}

#[test]
fn sound_heard() {
    let with = |source: usize, stamp, at| {
        sound_with(|end| {
            end.sources[source].heard = Some(Heard {
                stamp,
                at,
                sources: 0,
            })
        })
    };
    assert!(with(0, CLOCK_MAX, 20));
    assert!(!with(0, CLOCK_MAX + 1, 20));
    assert!(!with(0, 0, 21));
    assert!(!with(0, 0, u64::MAX));
    assert!(!with(1, 0, 0));
}

#[test]
fn sound_non_members() {
    for status in [
        Status::Idle,
        Status::Joining,
        Status::Leaving,
        Status::Crashed,
    ] {
        let with = |change: fn(&mut End)| {
            let mut end = End {
                clock: 9,
                next: 5,
                ..with_status(1, status)
            };
            change(&mut end);
            let sound = end.sound();
            end.status = Status::Member;
            (sound, end.sound())
        };
        assert_eq!(with(|_| ()), (true, true));
        assert_eq!(with(|end| end.sources[0].distance = 41), (false, true));
        assert_eq!(with(|end| end.sources[1].distance = 40), (false, false));
        assert_eq!(
            with(|end| end.sources[0].heard = Some(Heard {
                stamp: 0,
                at: 0,
                sources: 0
            })),
            (false, true)
        );
        assert_eq!(
            with(|end| {
                (end.sources[0].first, end.sources[0].last) = (Some(0), Some(0));
                end.sources[0].origin = Some(0);
                end.sources[0].names[0].body = Body::Held;
            }),
            (false, true)
        );
    }
}

/// A small generator, so that runs are the same each time.
struct Dice(u64);

impl Dice {
    fn below(&mut self, limit: u64) -> u64 {
        self.0 ^= self.0 << 13;
        self.0 ^= self.0 >> 7;
        self.0 ^= self.0 << 17;
        (self.0 >> 11) % limit
    }
}

/// Long runs of eight ends stay sound, are never refused by the own writer, touch no
/// other byte and hand no number out twice since joining.
#[test]
fn long_runs() {
    for seed in 1..=20u64 {
        let mut dice = Dice(seed.wrapping_mul(0x9E37_79B9_7F4A_7C15));
        let mut ends: Vec<End> = (0..8).map(member).collect();
        let mut messages: Vec<Vec<u8>> = vec![];
        let mut gots = vec![std::collections::HashSet::new(); 8];
        let mut clock = 0;
        for _ in 0..4000 {
            clock += dice.below(60);
            let host = dice.below(8) as usize;
            let event = match dice.below(200) {
                0..=7 => Event::Send(Cue::with_focus(dice.below(4001) as i16 - 2000)),
                8..=70 => Event::Fire,
                71..=85 => Event::Report,
                86 => Event::Leave,
                87..=88 => Event::Left,
                89..=90 => Event::Join,
                91..=92 => Event::Joined,
                _ if messages.is_empty() => Event::Fire,
                _ => {
                    let recent = dice.below(messages.len().min(30) as u64) as usize;
                    Event::Arrival(messages[messages.len() - 1 - recent].clone())
                }
            };
            let draws: Vec<Draw> = (0..64).map(|_| dice.below(65536) as Draw).collect();
            let end = &mut ends[host];
            let full = end.next == 65_536 && end.status == Status::Member;
            let (answer, out) = stepped(end, &event, clock, &draws);
            match answer {
                Answer::Refused(7) => assert!(full && matches!(event, Event::Send(_))),
                Answer::Refused(number) => panic!("{number}"),
                Answer::Got { source, number } => assert!(gots[host].insert((source, number))),
                Answer::Out(_) => {
                    assert!(read(&out).is_ok());
                    messages.push(out);
                }
                Answer::Done if event == Event::Joined => gots[host].clear(),
                _ => {}
            }
        }
        assert!(gots.iter().any(|got| got.len() > 5));
    }
}
