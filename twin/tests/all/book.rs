//! The book passes a true run and turns down lists that are none.

use twin::book::{check, Call, Fault};
use twin::cue::Cue;
use twin::end::{Answer, End, Event, Status};
use twin::message;
use twin::{DRAWS, OUTPUT_LEN};

use crate::support::*;

/// Calls on ends 0, 1 and 2, as they are observed.
struct Record {
    ends: Vec<End>,
    calls: Vec<Call>,
}

impl Record {
    fn new() -> Record {
        Record {
            ends: (0..3).map(idle).collect(),
            calls: Vec::new(),
        }
    }

    fn call(&mut self, host: u8, clock: u64, event: Event) -> Vec<u8> {
        let end = &mut self.ends[usize::from(host)];
        let (answer, out) = watched(end, &event, clock, &[0; DRAWS], OUTPUT_LEN);
        let bytes = match answer {
            Answer::Out(length) => out[..length].to_vec(),
            _ => vec![],
        };
        self.calls.push(Call {
            host,
            event,
            answer,
            out,
            status: end.status,
        });
        bytes
    }

    fn join(&mut self, host: u8, clock: u64) {
        self.call(host, clock, Event::Join);
        self.call(host, clock, Event::Joined);
    }

    fn hear(&mut self, host: u8, clock: u64, bytes: &[u8]) -> Answer {
        self.call(host, clock, Event::Arrival(bytes.to_vec()));
        self.calls.last().unwrap().answer
    }
}

fn got(source: u8, number: u16) -> Answer {
    Answer::Got { source, number }
}

/// The listing's story, then a leave and a rejoin: a run with every answer.
fn story() -> Record {
    let mut r = Record::new();
    r.join(0, 0);
    r.join(1, 0);
    r.call(1, 0, Event::Left);
    let sent: Vec<_> = (0..3)
        .map(|n| r.call(0, 10, Event::Send(Cue::with_focus(n))))
        .collect();
    assert_eq!(r.hear(1, 12, &sent[0]), got(0, 0));
    assert_eq!(r.hear(1, 32, &sent[2]), got(0, 2));
    r.call(1, 391, Event::Fire);
    let request = r.call(1, 392, Event::Fire);
    assert_eq!(r.hear(0, 400, &request), Answer::Done);
    let repair = r.call(0, 560, Event::Fire);
    assert_eq!(r.hear(0, 560, &repair), Answer::Ignored);
    assert_eq!(r.hear(2, 560, &repair), Answer::Ignored);
    assert_eq!(r.hear(1, 570, &repair), got(0, 1));
    assert_eq!(r.hear(1, 571, &repair), Answer::Done);
    assert_eq!(r.hear(1, 571, &sent[1]), Answer::Ignored);
    assert_eq!(r.hear(1, 571, &[4]), Answer::Refused(8));
    assert_eq!(r.hear(1, 571, &[]), Answer::Out(15));
    let report = r.call(1, 572, Event::Report);
    assert_eq!(r.hear(0, 573, &report), Answer::Done);
    r.call(1, 574, Event::Leave);
    r.call(1, 574, Event::Left);
    r.call(1, 574, Event::Send(Cue::ZERO));
    r.join(1, 575);
    assert_eq!(r.hear(1, 576, &repair), Answer::Ignored);
    assert_eq!(r.hear(1, 577, &sent[1]), got(0, 1));
    assert_eq!(r.hear(1, 577, &sent[0]), Answer::Ignored);
    r
}

/// The place of the story's first call with this answer.
fn place(calls: &[Call], answer: Answer) -> usize {
    calls.iter().position(|call| call.answer == answer).unwrap()
}

fn judged(change: impl FnOnce(&mut Vec<Call>)) -> Result<(), (usize, Fault)> {
    let mut calls = story().calls;
    change(&mut calls);
    check(&calls)
}

#[test]
fn a_run() {
    assert_eq!(judged(|_| ()), Ok(()));
    assert_eq!(check(&[]), Ok(()));
}

#[test]
fn refused_calls_change_nothing() {
    // Whatever the refused event is, it may stand anywhere.
    for event in crate::questions::every_event() {
        let verdict = judged(|calls| {
            let mut call = calls[3].clone();
            call.event = event;
            call.answer = Answer::Refused(1);
            calls.insert(4, call);
        });
        assert_eq!(verdict, Ok(()));
    }
}

#[test]
fn silence_instead_of_a_cue() {
    // The end that answers Ignored to all, at its first joining; at its first cue.
    let verdict = judged(|calls| calls[0].answer = Answer::Ignored);
    assert_eq!(verdict, Err((0, Fault::Answer)));
    let at = place(&story().calls, got(0, 2));
    let clash = Answer::Clash {
        source: 0,
        number: 2,
    };
    for answer in [Answer::Ignored, Answer::Done, Answer::Nothing, clash] {
        let verdict = judged(|calls| calls[at].answer = answer);
        assert_eq!(verdict, Err((at, Fault::Answer)));
    }
    let at = place(&story().calls, got(0, 1));
    let verdict = judged(|calls| calls[at].answer = Answer::Done);
    assert_eq!(verdict, Err((at, Fault::Answer)));
}

#[test]
fn a_cue_too_many() {
    // Twice, looped, outside membership, by a request, a Fire or a Report.
    for (at, call) in story().calls.iter().enumerate() {
        let arrival_or_other = !matches!(call.answer, Answer::Got { .. } | Answer::Refused(_));
        if arrival_or_other {
            let verdict = judged(|calls| calls[at].answer = got(0, 1));
            assert_eq!(verdict, Err((at, Fault::Answer)), "{call:?}");
        }
    }
}

#[test]
fn a_wrong_name_or_cue() {
    for (at, call) in story().calls.iter().enumerate() {
        if let Answer::Got { source, number } = call.answer {
            let verdict = judged(|calls| calls[at].answer = got(source, number + 1));
            assert_eq!(verdict, Err((at, Fault::Answer)));
            let verdict = judged(|calls| calls[at].answer = got(source + 1, number));
            assert_eq!(verdict, Err((at, Fault::Answer)));
            for byte in 0..24 {
                let verdict = judged(|calls| calls[at].out[byte] ^= 1);
                assert_eq!(verdict, Err((at, Fault::Answer)));
            }
            let verdict = judged(|calls| calls[at].out.truncate(23));
            assert_eq!(verdict, Err((at, Fault::Answer)));
        }
    }
}

#[test]
fn a_wrong_send() {
    let at = place(&story().calls, Answer::Out(40));
    // Silence, a length too small or too great, another kind, number or cue.
    for answer in [
        Answer::Ignored,
        Answer::Done,
        Answer::Out(39),
        Answer::Out(1000),
    ] {
        let verdict = judged(|calls| calls[at].answer = answer);
        assert_eq!(verdict, Err((at, Fault::Answer)));
    }
    for byte in [0, 1, 9, 10, 11, 12, 15, 37] {
        let verdict = judged(|calls| calls[at].out[byte] ^= 1);
        assert_eq!(verdict, Err((at, Fault::Answer)), "{byte}");
    }
    // The stamp is none of the book's business; only, this DATA was then never
    // put out, so that its first arrival is no part of such a list.
    let heard = place(&story().calls, got(0, 0));
    let verdict = judged(|calls| calls[at].out[7] ^= 1);
    assert_eq!(verdict, Err((heard, Fault::NoSuchList)));
}

#[test]
fn a_restarted_number() {
    // After a leave, number 0 again: "so one name has two cues".
    let mut r = Record::new();
    r.join(0, 0);
    r.call(0, 0, Event::Send(Cue::with_focus(1)));
    r.call(0, 0, Event::Leave);
    r.call(0, 0, Event::Left);
    r.join(0, 0);
    r.ends[0].next = 0;
    r.call(0, 0, Event::Send(Cue::with_focus(2)));
    assert_eq!(check(&r.calls), Err((r.calls.len() - 1, Fault::Answer)));
}

#[test]
fn a_first_kept_through_a_leave() {
    let mut r = story();
    let sent = r.calls[5].out[..40].to_vec();
    for event in [Event::Leave, Event::Left, Event::Join] {
        r.call(1, 600, event);
    }
    r.call(1, 600, Event::Joined);
    // Cue 0 lies below the first before the leave and must be handed out now.
    assert_eq!(r.hear(1, 601, &sent), got(0, 0));
    let at = r.calls.len() - 1;
    r.calls[at].answer = Answer::Ignored;
    assert_eq!(check(&r.calls), Err((at, Fault::Answer)));
}

/// "Got now also needs a number not below L−63", L "the highest number that unlooped DATA, RQST, REPL and SESS [...] brought".
#[test]
fn a_retired_cue() {
    // Host 0 has sent 0 to 64 and reported 64; host 2 has asked for 64.
    let mut r = Record::new();
    (0..3).for_each(|host| r.join(host, 0));
    let sent: Vec<_> = (0..66)
        .map(|n| r.call(0, 1, Event::Send(Cue::with_focus(n))))
        .collect();
    let report = r.call(0, 1, Event::Report);
    assert_eq!(r.hear(2, 2, &sent[62]), got(0, 62));
    assert_eq!(r.hear(2, 2, &report), Answer::Done);
    let requests = [r.call(2, 500, Event::Fire), r.call(2, 500, Event::Fire)];
    let before = r.calls.len();
    for brings in [&sent[64], &sent[65], &report, &requests[0], &requests[1]] {
        r.calls.truncate(before);
        r.ends[1] = member(1);
        assert_eq!(r.hear(1, 500, &sent[0]), got(0, 0));
        let high = r.hear(1, 500, brings);
        assert!(high != Answer::Ignored);
        let last = r.ends[1].sources[0].last.unwrap();
        // Just inside the latest 64 comes out, just below does not.
        let inside = usize::from(last.max(63) - 63);
        if inside > 0 {
            assert_eq!(r.hear(1, 500, &sent[inside]), got(0, inside as u16));
        }
        if inside > 1 {
            assert_eq!(r.hear(1, 500, &sent[inside - 1]), Answer::Ignored);
            assert_eq!(check(&r.calls), Ok(()));
            let at = r.calls.len() - 1;
            let call = &mut r.calls[at];
            call.answer = got(0, inside as u16 - 1);
            call.out[..24].copy_from_slice(&Cue::with_focus(inside as i16 - 1).0);
            assert_eq!(check(&r.calls), Err((at, Fault::Answer)));
        }
        assert!(last >= 63);
    }
    // Looped ones bring nothing, and before the first hand-out nothing counts.
    r.calls.truncate(before);
    r.ends[1] = member(1);
    assert_eq!(r.hear(1, 500, &report), Answer::Done);
    assert_eq!(r.hear(1, 500, &requests[0]), Answer::Ignored);
    assert_eq!(r.hear(1, 500, &sent[0]), got(0, 0));
    assert_eq!(r.hear(1, 500, &sent[1]), got(0, 1));
    assert_eq!(check(&r.calls), Ok(()));
}

#[test]
fn a_repair_that_opens_a_source() {
    let mut r = story();
    let repair = r
        .calls
        .iter()
        .find(|call| call.out[0] == message::REPL)
        .map(|call| call.out[..40].to_vec())
        .unwrap();
    r.join(2, 600);
    assert_eq!(r.hear(2, 600, &repair), Answer::Ignored);
    assert_eq!(check(&r.calls), Ok(()));
    let call = r.calls.last_mut().unwrap();
    call.answer = got(0, 1);
    call.out[..24].copy_from_slice(&Cue::with_focus(1).0);
    assert_eq!(check(&r.calls), Err((r.calls.len() - 1, Fault::Answer)));
}

#[test]
fn a_looped_repair() {
    // End 1 repairs 0,1 for end 2, rejoins, gets 0,0 and then hears its own
    // repair: the limits are met, but it is looped.
    let mut r = Record::new();
    for host in 0..3 {
        r.join(host, 0);
    }
    let sent: Vec<_> = (0..2)
        .map(|n| r.call(0, 0, Event::Send(Cue::with_focus(n))))
        .collect();
    r.hear(1, 0, &sent[0]);
    r.hear(1, 0, &sent[1]);
    r.hear(2, 0, &sent[0]);
    let report = r.call(1, 0, Event::Report);
    r.hear(2, 10, &report);
    let request = r.call(2, 370, Event::Fire);
    assert_eq!(r.hear(1, 371, &request), Answer::Done);
    let repair = r.call(1, 531, Event::Fire);
    r.call(1, 532, Event::Leave);
    r.call(1, 532, Event::Left);
    r.join(1, 532);
    assert_eq!(r.hear(1, 533, &sent[0]), got(0, 0));
    assert_eq!(r.hear(1, 534, &repair), Answer::Ignored);
    assert_eq!(r.hear(2, 534, &repair), got(0, 1));
    assert_eq!(check(&r.calls), Ok(()));
    let at = r.calls.len() - 2;
    r.calls[at].answer = got(0, 1);
    r.calls[at].out[..24].copy_from_slice(&Cue::with_focus(1).0);
    assert_eq!(check(&r.calls), Err((at, Fault::Answer)));
}

#[test]
fn a_wrong_status() {
    for at in 0..story().calls.len() {
        let verdict = judged(|calls| {
            calls[at].status = match calls[at].status {
                Status::Member => Status::Idle,
                _ => Status::Member,
            }
        });
        assert_eq!(verdict, Err((at, Fault::Status)));
    }
}

/// "In the service's runs such a datagram may come from anywhere."; "Other Arrivals, [...]: nothing changes, never Got."
#[test]
fn probes_come_from_anywhere() {
    let mut r = Record::new();
    assert_eq!(r.hear(0, 0, &[]), Answer::Ignored);
    r.join(0, 1);
    assert_eq!(r.hear(0, 2, &[]), Answer::Out(12));
    // What it put out was put out.
    let bytes = r.calls.last().unwrap().out[..12].to_vec();
    r.join(1, 2);
    assert_eq!(r.hear(1, 3, &bytes), Answer::Done);
    assert_eq!(check(&r.calls), Ok(()));
    let at = r.calls.len() - 1;
    let mut calls = r.calls.clone();
    calls[at].event = Event::Arrival(vec![4]);
    assert_eq!(check(&calls), Err((at, Fault::NoSuchList)));
    calls[at].event = Event::Arrival(vec![]);
    assert_eq!(check(&calls), Ok(()));
    calls[at].answer = got(0, 0);
    assert_eq!(check(&calls), Err((at, Fault::Answer)));
}

#[test]
fn no_such_list() {
    let verdict = judged(|calls| calls[0].host = 8);
    assert_eq!(verdict, Err((0, Fault::NoSuchList)));
    // Bytes that only a later call puts out.
    let at = place(&story().calls, got(0, 0));
    let verdict = judged(|calls| {
        let call = calls.remove(at);
        calls.insert(5, call);
    });
    assert_eq!(verdict, Err((5, Fault::NoSuchList)));
}
