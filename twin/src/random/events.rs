//! Which event comes next, its clock, and what it brings.

use super::messages::Reader;
use super::Run;
use crate::end::{Body, Record, Status};
use crate::trace::Verb;
use crate::CLOCK_MAX;

/// The eleven events.
#[derive(Clone, Copy)]
pub enum Kind {
    Join,
    Joined,
    Leave,
    Left,
    Crash,
    Send,
    Hear,
    Fire,
    Report,
    Fetch,
    Announce,
}

use Kind::*;

/// Any event.
pub const ANY: [(u64, Kind); 11] = [
    (1, Join),
    (1, Joined),
    (1, Leave),
    (1, Left),
    (1, Crash),
    (2, Send),
    (5, Hear),
    (2, Fire),
    (2, Report),
    (3, Fetch),
    (2, Announce),
];

/// Those that move the status.
pub const MOVES: [(u64, Kind); 5] = [(1, Join), (1, Joined), (1, Leave), (1, Left), (1, Crash)];

/// What a member is called with; none for any event.
const OF_MEMBERS: [(u64, Option<Kind>); 7] = [
    (44, Some(Hear)),
    (15, Some(Send)),
    (22, Some(Fire)),
    (9, Some(Report)),
    (4, Some(Fetch)),
    (4, Some(Announce)),
    (6, None),
];

/// When what waits in a record is due.
fn dues(record: &Record) -> impl Iterator<Item = u64> {
    let (express, other) = match (record.body, record.reply) {
        (Body::Waiting(request), _) => (request.express, Some(request.due)),
        (_, Some(reply)) => (None, Some(reply.due)),
        _ => (None, None),
    };
    express.into_iter().chain(other)
}

impl Run {
    /// The next event of one of the eight: mostly what leads to membership and belongs to it.
    pub fn kind(&mut self, who: usize) -> Kind {
        let status = self.stage.ends[who].status;
        if self.chatty && who == self.talker && status == Status::Member && self.dice.one_in(3) {
            return Send;
        }
        let usual = match status {
            Status::Member => self.dice.weighted(&OF_MEMBERS),
            _ if self.dice.below(10) >= 7 => None,
            Status::Idle => Some(Join),
            Status::Joining => Some(Joined),
            Status::Leaving => Some(Left),
            Status::Crashed => None,
        };
        match usual.unwrap_or_else(|| self.dice.weighted(&ANY)) {
            // Hosts 0 to 4 never crash, so that a long run stays alive.
            Crash if who < 5 => Fire,
            kind => kind,
        }
    }

    /// The clock of a call: the time, now and then a bad one; a fire often comes just at, before or after a due time.
    pub fn clock(&mut self, who: usize, kind: Kind) -> u64 {
        if self.dice.one_in(40) {
            return self.bad_clock(self.stage.ends[who].clock);
        }
        let usual = CLOCK_MAX.min(self.now + self.ahead[who]);
        match kind {
            Fire if self.dice.one_in(2) => self.due_about(who, usual).unwrap_or(usual),
            _ => usual,
        }
    }

    /// A clock about the due time of a wait, not before the usual one and not long after it.
    fn due_about(&mut self, who: usize, usual: u64) -> Option<u64> {
        let records = self.stage.ends[who].sources.iter().flat_map(|s| &s.names);
        let dues: Vec<u64> = records
            .flat_map(dues)
            .filter(|&due| due > usual && due < usual + 20_000 && due < CLOCK_MAX)
            .collect();
        if dues.is_empty() {
            return None;
        }
        let clock = self.dice.pick(&dues) - 1 + self.dice.pick(&[0, 1, 1, 1, 2]);
        self.now = self.now.max(clock.saturating_sub(self.ahead[who]));
        Some(clock)
    }

    /// The earliest due time of an end.
    pub fn first_due(&self, who: usize) -> Option<u64> {
        let records = self.stage.ends[who].sources.iter().flat_map(|s| &s.names);
        records.flat_map(dues).min()
    }

    pub fn bad_clock(&mut self, own: u64) -> u64 {
        let above = (1 << 48) + self.dice.below(1 << 20);
        self.dice
            .pick(&[own.saturating_sub(1), own / 2, 1 << 48, u64::MAX, above])
    }

    /// An event with what it brings, and whether the book knows that.
    pub fn verb(&mut self, kind: Kind, place: usize, clock: u64, invented: u64) -> (Verb, bool) {
        let verb = match kind {
            Join => Verb::Join,
            Joined => Verb::Joined,
            Leave => Verb::Leave,
            Left => Verb::Left,
            Crash => Verb::Crash,
            Fire => Verb::Fire,
            Report => Verb::Report,
            Announce => Verb::Announce,
            Send => Verb::Send(self.cue()),
            Fetch => self.fetch_of(place),
            Hear => {
                let reader = Reader {
                    place,
                    clock,
                    invented,
                };
                let (brought, real) = self.message(&reader);
                return (Verb::Hear(brought), real);
            }
        };
        (verb, true)
    }
}
