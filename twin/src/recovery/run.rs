//! A run of a random network: members and strangers, messages that take their time or are lost, and the log of all calls.

use std::collections::BTreeMap;

use super::log::{Log, Word, NUMBERS};
use super::member::Member;
use super::messages::{about, cue, measuring};
use super::plan::{Losses, Plan, START};
use super::suppose::Supposition;
use super::Time;
use crate::end::Event;
use crate::message::{DATA, REPL, RQST, SESS, XPRS};
use crate::random::dice::Dice;
use crate::{Draw, DRAWS, HOSTS};

/// A run has at most so many calls, and ends at this time at the latest.
const CALLS: usize = 6000;
const HORIZON: Time = 1 << 36;

/// What is to happen at a time.
pub enum Happens {
    Hears(usize, Vec<u8>),
    Sends,
    /// A report of a member, and so many after it.
    Reports(usize, u64),
    Moves(usize, Event),
    Strange,
}

/// When a host calls Fire for a wait that is due, and from when on it calls its end no more.
#[derive(Clone, Copy)]
pub struct Firing {
    next: Option<(Time, Time)>,
    pub stops: Time,
}

pub struct Run {
    pub plan: Plan,
    pub dice: Dice,
    pub now: Time,
    pub members: Vec<Member>,
    pub firing: Vec<Firing>,
    agenda: BTreeMap<(Time, u64), Happens>,
    count: usize,
    /// The requests and repairs put out so far.
    put_out: Vec<Vec<u8>>,
}

/// The finished run of a seed; a supposition may be named that is broken in most runs.
pub fn played(seed: u64, broken: Option<Supposition>) -> Log {
    let mut dice = Dice::seeded(seed);
    let plan = Plan::drawn(&mut dice, broken);
    let mut run = Run::new(plan, dice);
    run.measures();
    run.sends();
    run.spoils_from_the_start();
    run.plays();
    Log {
        source: run.plan.source(),
        way: run.plan.way,
        late: run.plan.late,
        period: run.plan.period,
        ends: run.members.into_iter().map(Member::finished).collect(),
    }
}

/// What is planned, and played in the order of time.
impl Run {
    fn new(plan: Plan, dice: Dice) -> Run {
        let source = plan.source();
        let ends = plan.hosts.iter().zip(&plan.params).zip(&plan.offsets);
        let members: Vec<Member> = ends
            .map(|((&host, &params), &offset)| Member::joined(host, params, offset, source))
            .collect();
        let firing = Firing {
            next: None,
            stops: Time::MAX,
        };
        Run {
            firing: vec![firing; members.len()],
            members,
            plan,
            dice,
            now: 0,
            agenda: BTreeMap::new(),
            count: 0,
            put_out: vec![],
        }
    }

    /// What happens at one time happens in any order.
    pub fn plan_at(&mut self, time: Time, happens: Happens) {
        let order = self.dice.below(1 << 32) << 24 | self.agenda.len() as u64;
        self.agenda.insert((time, order), happens);
    }

    /// Session messages of all hosts, made up so that each member has its distances.
    fn measures(&mut self) {
        self.now = 1000;
        let offset = |host: u8| {
            let place = self.plan.hosts.iter().position(|&one| one == host);
            self.plan.offsets[place.unwrap_or(0)]
        };
        let clocks: Vec<Time> = (0..HOSTS).map(|host| self.now + offset(host)).collect();
        for hearer in 0..self.members.len() {
            let own = self.plan.hosts[hearer];
            for host in (0..HOSTS).filter(|&host| host != own) {
                let Some(distance) = self.plan.distance(&mut self.dice) else {
                    continue;
                };
                let of = |host: u8| (host, clocks[usize::from(host)]);
                let bytes = measuring(of(host), of(own), distance);
                self.call(hearer, &Event::Arrival(bytes));
            }
        }
    }

    /// Cues and reports.
    fn sends(&mut self) {
        let (period, apart) = (self.plan.period as u64, self.plan.apart as u64);
        let mut time = START;
        for _ in 0..self.plan.cues {
            self.plan_at(time, Happens::Sends);
            time += match self.plan.beat {
                true => period * self.dice.below(3),
                false => self.dice.below(apart + 1),
            } as Time;
        }
        let mut reporters: Vec<usize> = (0..self.members.len()).collect();
        let rounds = self.plan.rounds + (time - START) as u64 / period;
        for _ in 0..self.plan.reporters {
            let which = self.dice.below(reporters.len() as u64) as usize;
            let after = match self.plan.beat {
                true => 0,
                false => self.dice.below(period) as Time,
            };
            let happens = Happens::Reports(reporters.remove(which), rounds);
            self.plan_at(START + after, happens);
        }
        self.others(2 * (time - START) + 8 * self.plan.way + 4000);
    }

    /// Strangers, and now and then a member that leaves, within so many ticks.
    fn others(&mut self, span: Time) {
        let when = |dice: &mut Dice| START + dice.below(span as u64) as Time;
        for _ in 0..self.plan.strangers {
            let when = when(&mut self.dice);
            self.plan_at(when, Happens::Strange);
        }
        if self.dice.one_in(6) {
            let place = self.dice.below(self.members.len() as u64) as usize;
            let when = when(&mut self.dice);
            self.leaves_at(place, when);
        }
    }

    /// Plays what happens and what is due, until nothing is left; then each host looks once more.
    fn plays(&mut self) {
        while self.count < CALLS {
            let planned = self.agenda.keys().next().map(|&(time, _)| time);
            let fires = self.next_fire();
            let fires_first = match (planned, fires) {
                (Some(planned), Some((time, _))) if planned == time => self.dice.one_in(2),
                (Some(planned), Some((time, _))) => time < planned,
                (None, Some(_)) => true,
                _ => false,
            };
            let Some(next) = planned.into_iter().chain(fires.map(|one| one.0)).min() else {
                return self.looks_last();
            };
            if next > HORIZON {
                return;
            }
            self.now = next;
            if let Some((_, place)) = fires.filter(|_| fires_first) {
                self.call(place, &Event::Fire);
            } else if let Some((_, happens)) = self.agenda.pop_first() {
                self.play(happens);
            }
        }
    }

    fn looks_last(&mut self) {
        self.now = 2 * HORIZON;
        for place in 0..self.members.len() {
            self.call(place, &Event::Fire);
        }
    }

    fn next_fire(&self) -> Option<(Time, usize)> {
        let all = self.firing.iter().enumerate();
        let times = all.filter_map(|(place, one)| {
            let (_, time) = one.next?;
            (time <= one.stops).then_some((time, place))
        });
        times.min()
    }

    fn play(&mut self, happens: Happens) {
        match happens {
            Happens::Hears(place, bytes) => self.call(place, &Event::Arrival(bytes)),
            Happens::Moves(place, event) => self.call(place, &event),
            Happens::Strange => self.strange(),
            Happens::Sends => {
                let number = self.members[0].end.next as u16;
                self.call(0, &Event::Send(cue(number)));
                if self.plan.early && number == self.plan.lacked {
                    self.asks_early();
                }
            }
            Happens::Reports(place, rounds) => {
                self.call(place, &Event::Report);
                if rounds > 1 {
                    let sooner = self.plan.reports.of(&mut self.dice, self.plan.period / 2);
                    let skips = self.plan.spoils == Some(Supposition::Reports);
                    let later = if skips { 3 * sooner } else { -sooner };
                    let next = self.now + self.plan.period + later;
                    self.plan_at(next, Happens::Reports(place, rounds - 1));
                }
            }
        }
    }
}

/// A call, and what comes of it.
impl Run {
    /// An event on a member; what it puts out is on its way to all others. A call of a host that has stopped does not come about.
    pub fn call(&mut self, place: usize, event: &Event) {
        if self.now > self.firing[place].stops {
            return;
        }
        self.count += 1;
        let most = Time::from(Draw::MAX);
        let draws: [Draw; DRAWS] =
            std::array::from_fn(|_| self.plan.draws.of(&mut self.dice, most) as Draw);
        let source = self.plan.source();
        let put_out = self.members[place].call(event, self.now, &draws, source);
        self.schedule(place);
        self.after_call(place);
        if let Some(bytes) = put_out {
            self.carry(place, &bytes);
        }
    }

    /// When the host will fire what is due first: at most Λ late, and not before now.
    fn schedule(&mut self, place: usize) {
        let due = self.members[place].due();
        let planned = self.firing[place].next;
        let stays = planned.is_some_and(|(for_due, time)| Some(for_due) == due && time > self.now);
        if !stays {
            let late = self.lateness(place);
            let next = due.map(|due| (due, (due + late).max(self.now)));
            self.firing[place].next = next;
        }
    }

    fn lateness(&mut self, place: usize) -> Time {
        let late = self.plan.lates.of(&mut self.dice, self.plan.late);
        let later = match self.plan.spoils {
            Some(Supposition::AsksInTime) => place == Plan::ASKER,
            Some(Supposition::RepliesInTime) => place == self.plan.holder(),
            _ => false,
        };
        match later {
            true => late + self.dice.below(8000) as Time,
            false => late,
        }
    }

    /// What a member has put out is heard by the others, but for what is lost.
    fn carry(&mut self, from: usize, bytes: &[u8]) {
        let word = Word::of(bytes, self.plan.source());
        let repairs = word.filter(|word| [RQST, XPRS, REPL].contains(&word.kind));
        let order = self.put_out.len() as u64;
        self.put_out.extend(repairs.map(|_| bytes.to_vec()));
        for to in (0..self.members.len()).filter(|&to| to != from) {
            let lost = match word {
                Some(word) if word.kind == DATA => self.loses_cue(to, word.number),
                Some(word) if word.kind == SESS => self.dice.below(100) < self.plan.reports_lost,
                Some(word) if self.is_early(to, &word) => true,
                Some(word) => self.loses(order, word.number),
                None => false,
            };
            let arrives = self.now + self.way(word.is_some_and(|word| word.kind == DATA));
            if !lost {
                self.plan_at(arrives, Happens::Hears(to, bytes.to_vec()));
            }
        }
    }

    /// How long a message takes: at most Δ, but for few that take longer, and for some cues.
    fn way(&mut self, cue: bool) -> Time {
        let way = self.plan.ways.of(&mut self.dice, self.plan.way);
        match self.dice.one_in(if cue { 8 } else { 400 }) {
            true => way + self.dice.below(4 * self.plan.way as u64 + 400) as Time,
            false => way,
        }
    }

    /// The asker lacks one cue, the holder none; else cues are lost at random. The first one opens the source, mostly.
    fn loses_cue(&mut self, to: usize, number: u16) -> bool {
        let rarely = number == 0 && !self.dice.one_in(8);
        let opens_late = self.plan.spoils == Some(Supposition::Opened);
        if to == Plan::ASKER && (number == self.plan.lacked || opens_late) {
            return true;
        }
        let spared = to == self.plan.holder() && self.plan.spoils != Some(Supposition::Holds);
        !rarely && !spared && self.dice.below(100) < self.plan.cues_lost
    }

    /// Is a request or a repair lost, the so manieth of the run? Numbers that were never sent are of no interest.
    fn loses(&mut self, order: u64, number: u16) -> bool {
        if usize::from(number) >= NUMBERS {
            return true;
        }
        match &self.plan.losses {
            Losses::None => false,
            Losses::Times(times) => times.contains(&order) && !self.dice.one_in(4),
            Losses::Outage(from, to) => (*from..*to).contains(&self.now),
            Losses::Rate(rate, until) => self.now < *until && self.dice.below(100) < *rate,
        }
    }
}

/// Strangers: displays and others that send well-formed messages, and some that do not.
impl Run {
    /// A stranger's message, or a copy of an old one, is heard by all members, or by some.
    fn strange(&mut self) {
        let bytes = match self.dice.below(10) {
            // A probe, which has members report, or no message at all.
            0 => {
                let length = self.dice.pick(&[0, 20]);
                self.dice.bytes(length)
            }
            1 | 2 if !self.put_out.is_empty() => {
                let which = self.dice.below(self.put_out.len() as u64) as usize;
                self.put_out[which].clone()
            }
            3 => self.strange_repair(),
            4 | 5 => self.strange_request(XPRS),
            _ => self.strange_request(RQST),
        };
        let all = !self.dice.one_in(4);
        for to in 0..self.members.len() {
            let arrives = self.now + self.plan.ways.of(&mut self.dice, self.plan.way);
            if all || self.dice.one_in(2) {
                self.plan_at(arrives, Happens::Hears(to, bytes.clone()));
            }
        }
    }

    /// A number that was sent.
    fn sent(&mut self) -> u16 {
        let sent = u64::from(self.members[0].end.next);
        self.dice.number(sent.clamp(1, NUMBERS as u64))
    }

    /// A stranger's repair, every other time with a cue that was never sent.
    fn strange_repair(&mut self) -> Vec<u8> {
        let (number, source) = (self.sent(), self.plan.source());
        let sender = self.plan.stranger(&mut self.dice);
        let host = self.dice.host_but(&[sender, source]);
        let mut bytes = about(REPL, sender, source, number, host);
        if self.dice.one_in(2) {
            // The last byte of the cue is a free one; the counts of reports and echoes come after it.
            let place = bytes.len() - 3;
            bytes[place] = 1;
        }
        bytes
    }

    /// A stranger's request.
    fn strange_request(&mut self, kind: u8) -> Vec<u8> {
        let number = self.sent();
        let sender = self.plan.stranger(&mut self.dice);
        let holder = self.plan.hosts[self.plan.holder()];
        let host = match kind {
            RQST => sender,
            _ if holder != sender => holder,
            _ => self.plan.source(),
        };
        about(kind, sender, self.plan.source(), number, host)
    }
}
