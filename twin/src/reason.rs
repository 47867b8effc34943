//! The reason behind Ignored: document 02, P3. "A new call takes a state and an event and gives the first that holds of" a list of ten, to which
//! P9 adds "a last reason "no fetch"".
//! Each reason is a test of its own, read from document 01's sentences and not from the step of the events.

use std::fmt;

use crate::branches::{self, take, Branch};
use crate::end::{Body, End, Event, Record, Source, Status};
use crate::message::{Datagram, Message, Name, DATA, FTCH, LATE, REPL, RQST, XPRS};

/// The eleven reasons, in the requests' order.
#[derive(Clone, Copy, Debug, PartialEq, Eq)]
pub enum Reason {
    Crashed,
    WrongStatus,
    OwnMessage,
    SourceNotOpen,
    BelowFirst,
    OwnAboveLast,
    AlreadyHeld,
    ReplyWaiting,
    ReplyQuiet,
    RequestQuiet,
    NoFetch,
}

/// What the call gives.
#[derive(Clone, Copy, Debug, PartialEq, Eq)]
pub enum Why {
    /// "An event that would be refused as 3 to 11 yields that number."
    Refused(u8),
    Ignored(Reason),
    /// "It gives "none" exactly where the event would be neither refused nor Ignored."
    None,
}

/// "the first that holds of: crashed; wrong status; own message; source not open (RQST, REPL); below first (DATA, RQST, REPL); own number
/// above last (RQST, REPL); already held (DATA); reply waiting, then reply-quiet (RQST of a held cue); request quiet (RQST of a cue not
/// held, up to last)."; P9: "for a last reason "no fetch"".
const REASONS: [(Reason, &str); 11] = [
    (Reason::Crashed, "crashed"),
    (Reason::WrongStatus, "wrong status"),
    (Reason::OwnMessage, "own message"),
    (Reason::SourceNotOpen, "source not open"),
    (Reason::BelowFirst, "below first"),
    (Reason::OwnAboveLast, "own number above last"),
    (Reason::AlreadyHeld, "already held"),
    (Reason::ReplyWaiting, "reply waiting"),
    (Reason::ReplyQuiet, "reply-quiet"),
    (Reason::RequestQuiet, "request quiet"),
    (Reason::NoFetch, "no fetch"),
];

impl End {
    /// Why this event, at this clock, would be Ignored or refused; "the call changes nothing".
    pub fn why(&self, event: &Event, clock: u64) -> Why {
        // What the questions and tests count is the events'.
        let (why, more) = branches::uncounted(|| self.first_reason(event, clock));
        take_why(why, more);
        why
    }

    /// The reason, and whether a later one holds too.
    fn first_reason(&self, event: &Event, clock: u64) -> (Why, bool) {
        let message = match self.questions_of_state(event, clock) {
            Err(number) => return (Why::Refused(number), false),
            // A probe has no sender and no name: only the first two reasons can hold of it.
            Ok(arrived) => arrived.and_then(Datagram::message),
        };
        let asked = Asked {
            end: self,
            clock,
            event,
            message,
        };
        let mut holding = REASONS.iter().filter(|(reason, _)| asked.holds(*reason));
        match holding.next() {
            Some(&(reason, _)) => (Why::Ignored(reason), holding.next().is_some()),
            None => (Why::None, false),
        }
    }
}

/// A state, a clock and an unrefused event; what arrives with it is read.
struct Asked<'a> {
    end: &'a End,
    clock: u64,
    event: &'a Event,
    message: Option<Message>,
}

/// Each reason. Document 02, P8: who does not answer kind 21 at once "treats kind 21 as RQST from its sender", so RQST's reasons are its own.
impl Asked<'_> {
    fn holds(&self, reason: Reason) -> bool {
        match reason {
            Reason::Crashed => self.crashed(),
            Reason::WrongStatus => self.wrong_status(),
            Reason::OwnMessage => self.own_message(),
            Reason::SourceNotOpen => self.source_not_open(),
            Reason::BelowFirst => self.below_first(),
            Reason::OwnAboveLast => self.own_above_last(),
            Reason::AlreadyHeld => self.already_held(),
            Reason::ReplyWaiting => self.reply_waiting(),
            Reason::ReplyQuiet => self.reply_quiet(),
            Reason::RequestQuiet => self.request_quiet(),
            Reason::NoFetch => self.no_fetch(),
        }
    }

    /// "On a crashed end everything unrefused is Ignored".
    fn crashed(&self) -> bool {
        self.end.status == Status::Crashed
    }

    /// "Join: idle to joining. Joined: joining to member. Leave: joining or member to leaving. Left: leaving to idle. Crash: to crashed.
    /// These give Done, from any other status Ignored."; "Send, Fire, Report, Arrival outside membership".
    fn wrong_status(&self) -> bool {
        let right: &[Status] = match self.event {
            Event::Join => &[Status::Idle],
            Event::Joined => &[Status::Joining],
            Event::Leave => &[Status::Joining, Status::Member],
            Event::Left => &[Status::Leaving],
            Event::Crash => &[
                Status::Idle,
                Status::Joining,
                Status::Member,
                Status::Leaving,
            ],
            Event::Send(_)
            | Event::Fire
            | Event::Report
            | Event::Arrival(_)
            | Event::Fetch { .. }
            | Event::Announce => &[Status::Member],
        };
        !right.contains(&self.end.status)
    }

    /// "an arrival whose sender is oneself".
    fn own_message(&self) -> bool {
        let sender = self.message.as_ref().map(|message| message.sender);
        sender == Some(self.end.host)
    }

    /// RQST and REPL: "no first".
    fn source_not_open(&self) -> bool {
        self.named(&[RQST, XPRS, REPL])
            .is_some_and(|(_, source, _)| source.first.is_none())
    }

    /// DATA, RQST and REPL: "Below first".
    fn below_first(&self) -> bool {
        self.named(&[DATA, RQST, XPRS, REPL])
            .is_some_and(|(name, source, _)| source.first.is_some_and(|first| name.number < first))
    }

    /// RQST and REPL: "own above last".
    fn own_above_last(&self) -> bool {
        self.named(&[RQST, XPRS, REPL])
            .is_some_and(|(name, source, _)| {
                name.source == self.end.host && source.last.is_some_and(|last| name.number > last)
            })
    }

    /// DATA: "held"; by P4 it "counted as the same cue" where "all 24 cue bytes" agree: "The reason call gives "none"" for a Clash.
    fn already_held(&self) -> bool {
        let cue = self.message.as_ref().and_then(|m| m.cues.first());
        self.named(&[DATA])
            .and_then(|(_, _, record)| record)
            .is_some_and(|record| record.body == Body::Held && Some(&record.cue) == cue)
    }

    /// RQST, "Held: with no reply waiting [...]; otherwise Ignored."
    fn reply_waiting(&self) -> bool {
        self.named(&[RQST, XPRS])
            .and_then(|(_, _, record)| record)
            .is_some_and(|record| record.body == Body::Held && record.reply.is_some())
            && !self.answered_at_once()
    }

    /// Document 02, P8: of kind 21 "The named sender, if it holds the cue and clock ≥ reply-quiet, drops its waiting reply [...] and
    /// answers Out REPL in that call": then no waiting reply has it Ignored.
    fn answered_at_once(&self) -> bool {
        let Some((name, _, Some(record))) = self.named(&[XPRS]) else {
            return false;
        };
        let holds = record.body == Body::Held && self.clock >= record.reply_quiet;
        name.host == self.end.host && holds
    }

    /// RQST, "Held: with [...] clock ≥ reply-quiet [...]; otherwise Ignored."
    fn reply_quiet(&self) -> bool {
        self.named(&[RQST, XPRS])
            .and_then(|(_, _, record)| record)
            .is_some_and(|record| record.body == Body::Held && self.clock < record.reply_quiet)
    }

    /// RQST, "Not held up to last: clock above quiet-until (lemma 4.24 is strict) [...]; otherwise Ignored."
    fn request_quiet(&self) -> bool {
        self.named(&[RQST, XPRS])
            .and_then(|(_, _, record)| record)
            .is_some_and(|record| match record.body {
                Body::Waiting(request) => self.clock <= request.quiet_until,
                _ => false,
            })
    }

    /// Document 02, P9: "A member may fetch any of the 64 numbers [...]; any other fetch, or one already handed out, is Ignored."; "The
    /// tried host answers with kind 23 in that call if it holds the cue. Its requester hands it out as Late [...] if it has tried that
    /// sender for the number since joining, at most once since joining [...]. All else is Ignored, for a last reason "no fetch"."
    fn no_fetch(&self) -> bool {
        if let Event::Fetch { source, number } = *self.event {
            return !self.fetchable(source, number) || self.handed_out(source, number);
        }
        let sender = self.message.as_ref().map_or(0, |message| message.sender);
        if let Some((name, _, record)) = self.named(&[FTCH]) {
            let holds = record.is_some_and(|record| record.body == Body::Held);
            return name.host != self.end.host || !holds;
        }
        if let Some((name, source, _)) = self.named(&[LATE]) {
            let tried = source.attempts[usize::from(name.number % 64)].tried >> sender & 1 == 1;
            let asked = name.host == self.end.host && tried;
            return !asked
                || !self.fetchable(name.source, name.number)
                || self.handed_out(name.source, name.number);
        }
        false
    }

    /// "any of the 64 numbers just below the first original it had since joining from another host".
    fn fetchable(&self, source: u8, number: u16) -> bool {
        let kept = self.end.sources.get(usize::from(source));
        kept.and_then(|kept| kept.origin)
            .is_some_and(|origin| (0..origin).rev().take(64).any(|below| below == number))
    }

    /// Of a fetchable number: "already handed out", which only Late does below the first original.
    fn handed_out(&self, source: u8, number: u16) -> bool {
        self.end.sources[usize::from(source)].attempts[usize::from(number % 64)].late
    }

    /// The name in a message of one of these kinds, with what the end keeps of its source and, inside first..last, of itself.
    fn named(&self, kinds: &[u8]) -> Option<(Name, &Source, Option<&Record>)> {
        let message = self.message.as_ref().filter(|m| kinds.contains(&m.kind))?;
        let name = *message.names.first()?;
        let source = &self.end.sources[usize::from(name.source)];
        Some((name, source, source.kept(name.number)))
    }
}

fn take_why(why: Why, more: bool) {
    match why {
        Why::Refused(number) => branches::take_refusal(Branch::Why3, 3, number),
        Why::None => take(Branch::WhyNone),
        Why::Ignored(reason) => {
            branches::take_nth(Branch::WhyCrashed, reason as usize);
            branches::when(more, Branch::WhyMore);
        }
    }
}

impl fmt::Display for Reason {
    fn fmt(&self, f: &mut fmt::Formatter<'_>) -> fmt::Result {
        let said = REASONS.iter().find(|(reason, _)| reason == self);
        f.write_str(said.map_or("", |(_, words)| words))
    }
}

impl fmt::Display for Why {
    fn fmt(&self, f: &mut fmt::Formatter<'_>) -> fmt::Result {
        match self {
            Why::Refused(number) => write!(f, "refused {number}"),
            Why::Ignored(reason) => reason.fmt(f),
            Why::None => f.write_str("none"),
        }
    }
}
