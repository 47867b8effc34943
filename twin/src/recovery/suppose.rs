//! What is supposed of an asker and its holders, looked for in a finished run.

use super::log::{Asking, Call, Calls, Kept, Log, Seen};
use super::Time;
use crate::end::Answer;
use crate::message::{REPL, RQST, XPRS};

macro_rules! suppositions {
    ($($one:ident $name:literal $words:literal,)*) => {
        /// One thing that is supposed.
        #[derive(Clone, Copy, Debug, PartialEq, Eq)]
        pub enum Supposition { $($one),* }

        /// Every supposition with its name and words.
        pub const ALL: &[(Supposition, &str, &str)] = &[$((Supposition::$one, $name, $words)),*];
    };
}

suppositions! {
    AskerStays "asker-stays" "the asker neither leaves nor crashes",
    HolderStays "holder-stays" "the holder neither leaves nor crashes",
    AskerKeeps "asker-keeps" "the number is not retired at the asker",
    HolderKeeps "holder-keeps" "the number is not retired at the holder",
    Holds "holder-holds" "the holder has the cue from t1 on",
    Opened "source-open" "the source is open at the asker at t1",
    AsksInTime "asks-in-time" "the asker fires a due request at most Λ late",
    RepliesInTime "replies-in-time" "the holder fires a due reply at most Λ late",
    RequestsReach "requests-reach" "the asker's request is heard by the holder within Δ",
    RequestsShared "requests-shared" "another's request that makes the asker wait longer is heard by the holder too",
    RepairsReach "repairs-reach" "the holder's repair is heard by the asker within Δ",
    RepairsShared "repairs-shared" "another's repair that quiets the holder is heard by the asker too",
    NotItsOwn "not-its-own" "what is heard does not come under the hearer's own number",
    Reach "reach" "no distance that the holder finds is above reach",
    Settled "settled" "what the holder had set before was within reach too",
    Alike "alike" "no holder's D1+D2 or D3 is greater than those of the bound",
    Far "far" "the asker's distance to the source is at most far",
    Near "near" "the asker's distance to the source is at least near",
    Back "back" "the request still waits when Y has passed since t1",
    LongRound "long-round" "round J and those after it are long enough",
    Outlasts "outlasts" "f covers every round that can have been set by t1 + Y",
    Called "called" "both are called after the bound",
    Reports "reports" "the reporter reports in every P ticks",
    Missed "missed" "at most i of the reports are missed",
    Unquiet "unquiet" "the holder is not quiet when it hears the express request",
}

impl Supposition {
    pub fn named(name: &str) -> Option<Supposition> {
        ALL.iter().find(|one| one.1 == name).map(|one| one.0)
    }
}

/// A round of a request: what it was, when it was set, the distance to the source that its setting found, and when it ended by asking,
/// one's own RQST or another's request.
#[derive(Clone, Copy, Debug)]
pub struct Round {
    pub round: u32,
    pub set: Time,
    pub due: Time,
    pub distance: i64,
    pub asked: Option<Time>,
}

/// A request from its first round on, until the cue comes or the request goes for another reason.
#[derive(Clone, Debug)]
pub struct Request {
    pub rounds: Vec<Round>,
    pub got: Option<Time>,
    /// The express wait: when it is due.
    pub express: Option<Time>,
}

impl Request {
    pub fn first(&self) -> &Round {
        &self.rounds[0]
    }
}

/// A message that was heard: when, and under which sender's number.
#[derive(Clone, Copy, Debug)]
pub struct Heard {
    pub time: Time,
    pub sender: u8,
}

/// From when to when a wait is overdue by more than Λ.
#[derive(Clone, Copy, Debug)]
pub struct Late {
    from: Time,
    to: Time,
}

/// What a run shows of one end and one number.
#[derive(Clone, Debug)]
pub struct Trail<'a> {
    pub of: &'a Calls,
    pub number: u16,
    pub requests: Vec<Request>,
    /// Requests and repairs of the number that it heard.
    pub asks: Vec<Heard>,
    pub repairs: Vec<Heard>,
    /// When it put out an RQST, and a REPL.
    pub asked: Vec<Time>,
    pub repaired: Vec<Time>,
    /// When it heard another's request while its own waited and was not quiet, and another's repair that it took.
    pub delayed: Vec<Time>,
    pub quieted: Vec<Time>,
    /// When it left or crashed; when the number was retired; when a request, an express wait, a reply was overdue.
    pub leaves: Vec<Time>,
    pub retired: Vec<Time>,
    pub asks_late: Vec<Late>,
    pub express_late: Vec<Late>,
    pub replies_late: Vec<Late>,
    /// The distances that it found to requesters.
    pub found: Vec<(Time, i64)>,
}

impl<'a> Trail<'a> {
    pub fn of(log: &'a Log, of: &'a Calls, number: u16) -> Trail<'a> {
        let mut trail = Trail {
            of,
            number,
            requests: vec![],
            asks: vec![],
            repairs: vec![],
            asked: vec![],
            repaired: vec![],
            delayed: vec![],
            quieted: vec![],
            leaves: vec![],
            retired: vec![],
            asks_late: vec![],
            express_late: vec![],
            replies_late: vec![],
            found: vec![],
        };
        for (before, call) in of.pairs() {
            trail.stays(before, call);
            trail.fires(before.of_number(number), call, log.late);
            trail.hears(before.of_number(number), call);
            trail.says(call);
            trail.asks_on(before.of_number(number), call, log.source);
        }
        trail
    }

    fn stays(&mut self, before: &Seen, call: &Call) {
        if before.member && !call.after.member {
            self.leaves.push(call.time);
        } else if before.keeps(self.number) && !call.after.keeps(self.number) {
            self.retired.push(call.time);
        }
    }

    /// A wait that is still there at a call later than Λ after its due time.
    fn fires(&mut self, was: &Kept, call: &Call, late: Time) {
        let to = call.time;
        let overdue = |due: Time| (to > due + late).then_some(due + late + 1);
        let late = |due: Time| overdue(due).map(|from| Late { from, to });
        let asking = was.asking;
        self.asks_late
            .extend(asking.and_then(|asking| late(asking.due)));
        let express = asking.and_then(|asking| asking.express);
        self.express_late.extend(express.and_then(late));
        self.replies_late.extend(was.reply.and_then(late));
    }

    fn hears(&mut self, was: &Kept, call: &Call) {
        let Some(word) = call.heard else { return };
        let time = call.time;
        let heard = Heard {
            time,
            sender: word.sender,
        };
        let anothers = word.sender != self.of.host;
        if word.asks(self.number) {
            self.asks.push(heard);
            if anothers && was.asking.is_some_and(|asking| time > asking.quiet) {
                self.delayed.push(time);
            }
            if anothers && was.held {
                self.find(call, word.sender);
            }
        } else if word.is(REPL, self.number) {
            self.repairs.push(heard);
            // A repair with other bytes is a Clash, which changes nothing.
            if anothers && matches!(call.answer, Answer::Done | Answer::Got { .. }) {
                self.quieted.push(time);
                self.find(call, word.host);
            }
        }
    }

    fn says(&mut self, call: &Call) {
        let Some(word) = call.said else { return };
        if word.is(RQST, self.number) {
            self.asked.push(call.time);
        } else if word.is(REPL, self.number) {
            self.repaired.push(call.time);
            self.find(call, word.host);
        }
    }

    /// The distance to a requester that a call found.
    fn find(&mut self, call: &Call, requester: u8) {
        let distance = call.distances[usize::from(requester)];
        self.found.push((call.time, distance));
    }

    /// Rounds that a call ends and sets.
    fn asks_on(&mut self, was: &Kept, call: &Call, source: u8) {
        let rounds = |asking: Asking| (asking.round, asking.due, asking.quiet);
        let now = call.after.of_number(self.number).asking;
        if was.asking.map(rounds) == now.map(rounds) {
            return;
        }
        if was.asking.is_none() {
            self.requests.push(Request {
                rounds: vec![],
                got: None,
                express: now.and_then(|asking| asking.express),
            });
        }
        let Some(request) = self.requests.last_mut() else {
            return;
        };
        let Some(asking) = now else {
            request.got = call.got(source, self.number).then_some(call.time);
            return;
        };
        if let Some(ended) = request.rounds.last_mut() {
            ended.asked = Some(call.time);
        }
        request.rounds.push(Round {
            round: asking.round,
            set: call.time,
            due: asking.due,
            distance: call.distances[usize::from(source)],
            asked: None,
        });
    }
}

/// Is there a time after `from`, up to `to`?
pub fn any_in(times: &[Time], from: Time, to: Time) -> bool {
    times.iter().any(|&time| from < time && time <= to)
}

/// Is something overdue after `from`, up to `to` or in the call that comes next? What was due then had to be fired by then.
pub fn late_in(late: &[Late], from: Time, to: Time) -> bool {
    late.iter().any(|one| one.from <= to + 1 && from < one.to)
}

/// What is left out of what is supposed.
#[derive(Clone, Copy, Debug, Default, PartialEq, Eq)]
pub struct Without(pub Option<Supposition>);

impl Without {
    /// Is this left out?
    pub fn leaves(&self, one: Supposition) -> bool {
        self.0 == Some(one)
    }

    /// Does one hear, from a time to another, what does not come under its own number?
    fn hears(&self, heard: &[Heard], own: u8, from: Time, to: Time) -> bool {
        let anyones = self.leaves(Supposition::NotItsOwn);
        heard
            .iter()
            .any(|one| (from..=to).contains(&one.time) && (anyones || one.sender != own))
    }

    /// The times of the four sentences on what is heard, at which one of them does not hold: a request of the asker is heard by some
    /// holder, another's that delays it too; a repair of a holder is heard by the asker, another's that quiets the holder too.
    pub fn losses(&self, asker: &Trail, holders: &[&Trail], way: Time) -> Vec<Time> {
        let holder_hears = |from: Time, to: Time| {
            let mut holders = holders.iter();
            holders.any(|holder| self.hears(&holder.asks, holder.of.host, from, to))
        };
        let asker_hears =
            |from: Time, to: Time| self.hears(&asker.repairs, asker.of.host, from, to);
        let mut lost = vec![];
        if !self.leaves(Supposition::RequestsReach) {
            let times = asker.asked.iter().copied();
            lost.extend(times.filter(|&time| !holder_hears(time, time + way)));
        }
        if !self.leaves(Supposition::RequestsShared) {
            let times = asker.delayed.iter().copied();
            lost.extend(times.filter(|&time| !holder_hears(time - way, time + way)));
        }
        for holder in holders {
            if !self.leaves(Supposition::RepairsReach) {
                let times = holder.repaired.iter().copied();
                lost.extend(times.filter(|&time| !asker_hears(time, time + way)));
            }
            if !self.leaves(Supposition::RepairsShared) {
                let times = holder.quieted.iter().copied();
                lost.extend(times.filter(|&time| !asker_hears(time - way, time + way)));
            }
        }
        lost.sort_unstable();
        lost.dedup();
        lost
    }

    /// Does the asker stay, keep the number and fire in time, after a time and up to another?
    pub fn asker_fits(&self, asker: &Trail, from: Time, to: Time) -> bool {
        self.stays(asker, Supposition::AskerStays, from, to)
            && self.keeps(asker, Supposition::AskerKeeps, from, to)
            && (self.leaves(Supposition::AsksInTime) || !late_in(&asker.asks_late, from, to))
    }

    pub fn holder_fits(&self, holder: &Trail, from: Time, to: Time) -> bool {
        let late = &holder.replies_late;
        self.stays(holder, Supposition::HolderStays, from, to)
            && self.keeps(holder, Supposition::HolderKeeps, from, to)
            && (self.leaves(Supposition::RepliesInTime) || !late_in(late, from, to))
    }

    pub fn stays(&self, one: &Trail, what: Supposition, from: Time, to: Time) -> bool {
        self.leaves(what) || !any_in(&one.leaves, from, to)
    }

    pub fn keeps(&self, one: &Trail, what: Supposition, from: Time, to: Time) -> bool {
        self.leaves(what) || !any_in(&one.retired, from, to)
    }

    /// Is the source open at the asker at a time, and the number not below its first?
    pub fn open_at(&self, asker: &Trail, time: Time) -> bool {
        let open = |seen: &Seen| seen.member && seen.keeps(asker.number);
        self.leaves(Supposition::Opened) || asker.of.at(time).is_some_and(open)
    }

    pub fn holds_at(&self, holder: &Trail, time: Time) -> bool {
        let held = |seen: &Seen| seen.member && seen.of_number(holder.number).held;
        self.leaves(Supposition::Holds) || holder.of.at(time).is_some_and(held)
    }

    /// The express requests of the number that an end put out: when, and to whom.
    pub fn expresses<'a>(&self, asker: &'a Trail) -> impl Iterator<Item = (Time, u8)> + 'a {
        let number = asker.number;
        asker.of.calls.iter().filter_map(move |call| {
            let word = call.said.filter(|word| word.is(XPRS, number))?;
            Some((call.time, word.host))
        })
    }
}
