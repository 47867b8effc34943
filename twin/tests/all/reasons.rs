//! The reason behind Ignored: document 02, P3.

use crate::support::{
    act, bytes, data, hear, idle, member, repl, rqst, send, sess, with_status, xprs,
};
use twin::cue::Cue;
use twin::end::{Body, End, Event, Reply, Request, Status};
use twin::message::Message;
use twin::reason::{Reason, Why};
use twin::CLOCK_MAX;

const C: Cue = Cue::ZERO;

fn arrival(message: &Message) -> Event {
    Event::Arrival(bytes(message))
}

/// A member of host 2 at clock 40: 1,3 held with a reply waiting for host 3, 1,4 waiting and quiet until 200, 1,5 held with reply-quiet
/// 60, 2,0 its own.
fn busy() -> End {
    let mut end = member(2);
    hear(&mut end, &data(1, 3, C), 40);
    hear(&mut end, &data(1, 5, C), 40);
    send(&mut end, C, 40);
    hear(&mut end, &rqst(3, 1, 3), 40);
    let names = &mut end.sources[1].names;
    names[5].reply_quiet = 60;
    assert_eq!(names[3].reply.map(|reply| reply.requester), Some(3));
    assert!(matches!(
        names[4].body,
        Body::Waiting(Request {
            quiet_until: 200,
            ..
        })
    ));
    assert!(end.sound());
    end
}

/// The reason, and what the event then answers: none exactly where it is neither refused nor Ignored.
fn why(end: &End, event: &Event, clock: u64) -> Why {
    let before = end.clone();
    let why = end.why(event, clock);
    assert_eq!(*end, before, "the call changes nothing");
    let answer = act(&mut end.clone(), event, clock);
    match why {
        Why::Refused(number) => assert_eq!(answer, twin::end::Answer::Refused(number)),
        Why::Ignored(_) => assert_eq!(answer, twin::end::Answer::Ignored),
        Why::None => assert!(!matches!(
            answer,
            twin::end::Answer::Ignored | twin::end::Answer::Refused(_)
        )),
    }
    why
}

#[test]
fn messages_at_a_member() {
    use Reason::*;
    let end = busy();
    let rows = [
        (sess(2, 5, &[], &[]), 50, Some(OwnMessage)),
        (rqst(2, 3, 0), 50, Some(OwnMessage)),
        (rqst(2, 1, 2), 50, Some(OwnMessage)),
        (data(2, 0, C), 50, Some(OwnMessage)),
        (rqst(3, 4, 0), 50, Some(SourceNotOpen)),
        (repl(3, 4, 0, 2, C), 50, Some(SourceNotOpen)),
        (data(4, 0, C), 50, None),
        (data(1, 2, C), 50, Some(BelowFirst)),
        (rqst(3, 1, 2), 50, Some(BelowFirst)),
        (repl(3, 1, 2, 4, C), 50, Some(BelowFirst)),
        (rqst(3, 2, 1), 50, Some(OwnAboveLast)),
        (repl(3, 2, 1, 4, C), 50, Some(OwnAboveLast)),
        (rqst(3, 1, 6), 50, None),
        (repl(3, 1, 6, 4, C), 50, None),
        (rqst(3, 2, 0), 50, None),
        (data(1, 3, C), 50, Some(AlreadyHeld)),
        (data(1, 4, C), 50, None),
        (repl(3, 1, 3, 4, C), 50, None),
        (rqst(4, 1, 3), 50, Some(ReplyWaiting)),
        (rqst(4, 1, 5), 59, Some(ReplyQuiet)),
        (rqst(4, 1, 5), 60, None),
        (rqst(4, 1, 4), 199, Some(RequestQuiet)),
        (rqst(4, 1, 4), 200, Some(RequestQuiet)),
        (rqst(4, 1, 4), 201, None),
        (repl(3, 1, 4, 2, C), 50, None),
        (sess(3, 5, &[(1, 9)], &[(2, 9, 9)]), 50, None),
        // Document 02, P8: another "treats kind 21 as RQST from its sender", the named one too where it does not answer at once.
        (xprs(2, 1, 2, 3), 50, Some(OwnMessage)),
        (xprs(3, 4, 0, 2), 50, Some(SourceNotOpen)),
        (xprs(3, 1, 2, 2), 50, Some(BelowFirst)),
        (xprs(3, 2, 1, 2), 50, Some(OwnAboveLast)),
        (xprs(3, 1, 6, 2), 50, None),
        (xprs(4, 1, 3, 1), 50, Some(ReplyWaiting)),
        (xprs(4, 1, 3, 2), 50, None),
        (xprs(4, 1, 5, 1), 59, Some(ReplyQuiet)),
        (xprs(4, 1, 5, 2), 59, Some(ReplyQuiet)),
        (xprs(4, 1, 5, 2), 60, None),
        (xprs(4, 1, 4, 2), 200, Some(RequestQuiet)),
        (xprs(4, 1, 4, 2), 201, None),
        (xprs(4, 2, 0, 2), 50, None),
    ];
    for (message, clock, expected) in rows {
        let expected = expected.map_or(Why::None, Why::Ignored);
        assert_eq!(
            why(&end, &arrival(&message), clock),
            expected,
            "{message:?}"
        );
    }
    // "reply waiting, then reply-quiet": both hold.
    let mut both = end.clone();
    both.sources[1].names[3].reply_quiet = 90;
    let asked = why(&both, &arrival(&rqst(4, 1, 3)), 50);
    assert_eq!(asked, Why::Ignored(ReplyWaiting));
    let asked = why(&both, &arrival(&xprs(4, 1, 3, 2)), 50);
    assert_eq!(asked, Why::Ignored(ReplyWaiting));
    both.sources[1].names[3].reply = None;
    let asked = why(&both, &arrival(&rqst(4, 1, 3)), 50);
    assert_eq!(asked, Why::Ignored(ReplyQuiet));
}

#[test]
fn statuses() {
    use Status::*;
    let report = arrival(&sess(3, 5, &[], &[]));
    let own = arrival(&sess(2, 5, &[], &[]));
    for status in [Idle, Joining, Member, Leaving, Crashed] {
        let end = with_status(2, status);
        let rows: [(Event, &[Status]); 10] = [
            (Event::Join, &[Idle]),
            (Event::Joined, &[Joining]),
            (Event::Leave, &[Joining, Member]),
            (Event::Left, &[Leaving]),
            (Event::Crash, &[Idle, Joining, Member, Leaving]),
            (Event::Send(C), &[Member]),
            (Event::Fire, &[Member]),
            (Event::Report, &[Member]),
            (report.clone(), &[Member]),
            (own.clone(), &[]),
        ];
        for (event, right) in rows {
            let expected = match status {
                Crashed => Why::Ignored(Reason::Crashed),
                Member if event == own => Why::Ignored(Reason::OwnMessage),
                _ if right.contains(&status) => Why::None,
                _ => Why::Ignored(Reason::WrongStatus),
            };
            assert_eq!(why(&end, &event, 7), expected, "{status:?} {event:?}");
        }
    }
}

#[test]
fn refusals_come_before_reasons() {
    let end = busy();
    assert_eq!(why(&end, &Event::Fire, CLOCK_MAX + 1), Why::Refused(4));
    assert_eq!(why(&end, &Event::Fire, 39), Why::Refused(5));
    let far = Event::Send(Cue::with_focus(2001));
    assert_eq!(why(&end, &far, 50), Why::Refused(6));
    assert_eq!(why(&idle(1), &far, 50), Why::Refused(6));
    assert_eq!(
        why(&with_status(1, Status::Crashed), &far, 50),
        Why::Refused(6)
    );
    let mut last = member(1);
    last.next = 65_536;
    assert_eq!(why(&last, &Event::Send(C), 50), Why::Refused(7));
    last.status = Status::Idle;
    let wrong_status = Why::Ignored(Reason::WrongStatus);
    assert_eq!(why(&last, &Event::Send(C), 50), wrong_status);
    let mut looped = bytes(&rqst(2, 1, 3));
    looped.push(0);
    assert_eq!(
        why(&end, &Event::Arrival(looped.clone()), 50),
        Why::Refused(8)
    );
    looped.pop();
    looped[0] = 5;
    assert_eq!(
        why(&end, &Event::Arrival(looped.clone()), 50),
        Why::Refused(9)
    );
    looped[0] = 18;
    looped[9] = 8;
    assert_eq!(
        why(&end, &Event::Arrival(looped.clone()), 50),
        Why::Refused(10)
    );
    looped[9] = 1;
    looped[12] = 4;
    assert_eq!(why(&end, &Event::Arrival(looped), 50), Why::Refused(11));
    let mut unsound = end;
    unsound.sources[1].names[3].reply = Some(Reply {
        due: 5,
        requester: 2,
    });
    assert_eq!(why(&unsound, &Event::Fire, CLOCK_MAX + 1), Why::Refused(3));
}
