//! What is made to happen to a run's asker and holder: a repair long before, a stranger's request just before; and what breaks a supposition
//! on purpose, so that a bound which needs it is missed in some run.

use super::log::{Call, Kept, Word};
use super::messages::{about, reporting};
use super::plan::{Plan, START};
use super::run::{Happens, Run};
use super::suppose::Supposition;
use super::Time;
use crate::end::Event;
use crate::message::{DATA, REPL, RQST};

/// What is planned before the first cue.
impl Run {
    pub fn spoils_from_the_start(&mut self) {
        let (asker, holder) = (Plan::ASKER, self.plan.holder());
        let when = START + self.dice.below(8000 + 8 * self.plan.way as u64) as Time;
        match self.plan.spoils {
            Some(Supposition::AskerStays) => self.leaves_at(asker, when),
            Some(Supposition::HolderStays) => self.leaves_at(holder, when),
            Some(Supposition::AskerKeeps) => self.retires_at(asker, when),
            Some(Supposition::HolderKeeps) => self.retires_at(holder, when),
            Some(Supposition::Called) => {
                let place = self.dice.pick(&[asker, holder]);
                self.firing[place].stops = when;
            }
            Some(Supposition::Opened) => self.opens_late(),
            _ => {}
        }
    }

    pub fn leaves_at(&mut self, place: usize, when: Time) {
        let event = match self.dice.one_in(2) {
            true => Event::Leave,
            false => Event::Crash,
        };
        self.plan_at(when, Happens::Moves(place, event));
    }

    /// A report of a number so high that all that was sent is retired.
    fn retires_at(&mut self, place: usize, when: Time) {
        let sender = self.plan.stranger(&mut self.dice);
        let last = 64 + self.dice.number(10);
        let bytes = reporting(sender, self.plan.source(), last);
        self.plan_at(when, Happens::Hears(place, bytes));
    }

    /// The source is opened at the asker just after the holder has repaired the number that the asker lacks and now hears of.
    fn opens_late(&mut self) {
        let source = self.plan.source();
        let all = Time::from(self.plan.cues) * self.plan.apart.max(2 * self.plan.period);
        let when = START + all + self.dice.below(2000) as Time;
        let asks = self.request(self.plan.lacked);
        let before = when - self.dice.below(2000) as Time;
        self.plan_at(before, Happens::Hears(self.plan.holder(), asks));
        let opens = about(DATA, source, source, 0, source);
        self.plan_at(when, Happens::Hears(Plan::ASKER, opens));
        let after = when + self.dice.below(100) as Time;
        self.hears_of(after);
    }

    /// The asker hears of the number that it lacks by a stranger's report.
    fn hears_of(&mut self, when: Time) {
        let sender = self.plan.stranger(&mut self.dice);
        let bytes = reporting(sender, self.plan.source(), self.plan.lacked);
        self.plan_at(when, Happens::Hears(Plan::ASKER, bytes));
    }

    /// A stranger's request.
    fn request(&mut self, number: u16) -> Vec<u8> {
        let sender = self.plan.stranger(&mut self.dice);
        about(RQST, sender, self.plan.source(), number, sender)
    }
}

/// A request before the asker's.
impl Run {
    /// The lacked number is sent: a stranger asks for it, which all but the asker hear, at once or just before the next report.
    pub fn asks_early(&mut self) {
        let bytes = self.request(self.plan.lacked);
        let after = match self.plan.beat {
            true => self.plan.period - self.dice.below(40) as Time,
            false => 2 * self.plan.way + self.dice.below(20) as Time,
        };
        for place in (0..self.members.len()).filter(|&place| place != Plan::ASKER) {
            self.plan_at(self.now + after, Happens::Hears(place, bytes.clone()));
        }
    }

    /// Is this a repair of the lacked number on its way to an asker that has not heard of it? It is lost; now and then the asker soon hears
    /// of the number.
    pub fn is_early(&mut self, to: usize, word: &Word) -> bool {
        let number = self.plan.lacked;
        let calls = &self.members[to].calls;
        let knows = calls.last().is_some_and(|call| call.after.has(number));
        let early = self.plan.early && to == Plan::ASKER && word.is(REPL, number) && !knows;
        if early && !self.plan.beat && self.dice.one_in(2) {
            let when = self.now + self.dice.below(4) as Time;
            self.hears_of(when);
        }
        early
    }
}

/// What is done after a call.
impl Run {
    pub fn after_call(&mut self, place: usize) {
        let [.., before, call] = &self.members[place].calls[..] else {
            return;
        };
        let number = self.plan.lacked;
        let (was, now) = (
            *before.after.of_number(number),
            *call.after.of_number(number),
        );
        let call = *call;
        if place == Plan::ASKER {
            self.after_askers_call(&call, &was, &now);
        }
        if place == self.plan.holder() && self.plan.spoils == Some(Supposition::RepairsShared) {
            if let Some(due) = now.reply.filter(|_| now.reply != was.reply) {
                self.quiets(due);
            }
        }
    }

    fn after_askers_call(&mut self, call: &Call, was: &Kept, now: &Kept) {
        if self.plan.paired && call.got(self.plan.source(), 0) {
            self.pairs();
        }
        let own = self.plan.spoils == Some(Supposition::NotItsOwn);
        if own || self.plan.spoils == Some(Supposition::RequestsShared) {
            if let Some(asking) = now.asking.filter(|_| now.asking != was.asking) {
                self.delays(asking.quiet + 1, asking.due, own);
            }
        }
    }

    /// The asker, which has just had the first cue, hears a repair of it that the holder made for the asker.
    fn pairs(&mut self) {
        let [asker, holder] = [Plan::ASKER, self.plan.holder()].map(|one| self.plan.hosts[one]);
        let bytes = about(REPL, holder, self.plan.source(), 0, asker);
        self.plan_at(self.now, Happens::Hears(Plan::ASKER, bytes));
    }

    /// The asker hears a request after its quiet time and before its own is due; under the holder's number, the holder hears it as its own.
    fn delays(&mut self, from: Time, due: Time, own: bool) {
        if from > due || self.dice.one_in(4) {
            return;
        }
        let when = from + self.dice.below((due - from) as u64 + 1) as Time;
        let source = self.plan.source();
        let holder = self.plan.hosts[self.plan.holder()];
        let sender = match own && holder != source {
            true => holder,
            false => self.plan.stranger(&mut self.dice),
        };
        let bytes = about(RQST, sender, source, self.plan.lacked, sender);
        if own {
            self.plan_at(when, Happens::Hears(self.plan.holder(), bytes.clone()));
        }
        self.plan_at(when, Happens::Hears(Plan::ASKER, bytes));
    }

    /// The holder alone hears a repair before its own is due.
    fn quiets(&mut self, due: Time) {
        if self.dice.one_in(4) {
            return;
        }
        let when = self.now + self.dice.below((due - self.now).max(0) as u64 + 1) as Time;
        let [asker, holder] = [Plan::ASKER, self.plan.holder()].map(|one| self.plan.hosts[one]);
        let sender = self.dice.host_but(&[holder, asker]);
        let bytes = about(REPL, sender, self.plan.source(), self.plan.lacked, asker);
        self.plan_at(when, Happens::Hears(self.plan.holder(), bytes));
    }
}
