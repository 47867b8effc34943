//! A random network: its members, ways, distances and losses.

use super::log::NUMBERS;
use super::suppose::{Supposition, ALL};
use super::Time;
use crate::end::Params;
use crate::random::dice::Dice;
use crate::HOSTS;

/// When the source sends its first cue: by then the members have joined and have their distances.
pub const START: Time = 20_000;

/// How something between 0 and its most is drawn.
#[derive(Clone, Copy, Debug, PartialEq, Eq)]
pub enum Style {
    Least,
    Most,
    Ends,
    Any,
}

impl Style {
    fn drawn(dice: &mut Dice) -> Style {
        dice.weighted(&[
            (1, Style::Least),
            (3, Style::Most),
            (2, Style::Ends),
            (3, Style::Any),
        ])
    }

    pub fn of(self, dice: &mut Dice, most: Time) -> Time {
        match self {
            Style::Least => 0,
            Style::Most => most,
            Style::Ends => dice.pick(&[0, most]),
            Style::Any => dice.below(most as u64 + 1) as Time,
        }
    }
}

/// What of requests and repairs is lost.
#[derive(Clone, Debug, PartialEq, Eq)]
pub enum Losses {
    None,
    /// Of the messages put out, counted from 0, these.
    Times(Vec<u64>),
    /// All that is put out from a time to another.
    Outage(Time, Time),
    /// Of 100 so many, each way by itself, up to a time.
    Rate(u64, Time),
}

/// What members know of their distances.
#[derive(Clone, Copy, Debug, PartialEq, Eq)]
pub enum Distances {
    /// "at first 40".
    First,
    /// All the same.
    Even(u64),
    /// Each pair its own.
    Mixed,
}

#[derive(Clone, Debug)]
pub struct Plan {
    /// The members' host numbers; the first is the source's, the second an asker's, the last a holder's.
    pub hosts: Vec<u8>,
    pub params: Vec<Params>,
    /// Clocks are so far ahead of the time that all share.
    pub offsets: Vec<Time>,
    pub way: Time,
    pub late: Time,
    pub period: Time,
    pub ways: Style,
    pub lates: Style,
    pub draws: Style,
    /// Reports come after P ticks, or sooner.
    pub reports: Style,
    pub losses: Losses,
    pub distances: Distances,
    /// How many cues are sent, and the ticks between two of them at most.
    pub cues: u16,
    pub apart: Time,
    /// The number that the asker surely lacks.
    pub lacked: u16,
    /// Of 100 cues so many are lost on each way, of session messages so many.
    pub cues_lost: u64,
    pub reports_lost: u64,
    /// How many members report, how often, and how many messages strangers send.
    pub reporters: usize,
    pub rounds: u64,
    pub strangers: u64,
    /// Cues and reports keep to one beat of P ticks.
    pub beat: bool,
    /// The asker has had a repair from the holder before, so that a gap sets an express wait.
    pub paired: bool,
    /// Before the asker hears of the number it lacks, a stranger asks for it, and the repair does not reach the asker.
    pub early: bool,
    /// What is supposed and is broken on purpose.
    pub spoils: Option<Supposition>,
}

impl Plan {
    /// The places of the asker and the holder that are taken care of: the asker lacks a cue, the holder has all.
    pub const ASKER: usize = 1;

    pub fn holder(&self) -> usize {
        match self.hosts.len() {
            2 => 0,
            members => members - 1,
        }
    }

    pub fn source(&self) -> u8 {
        self.hosts[0]
    }

    /// A host number that no member has, if there is one, else any but the source's.
    pub fn stranger(&self, dice: &mut Dice) -> u8 {
        let free: Vec<u8> = (0..HOSTS)
            .filter(|host| !self.hosts.contains(host))
            .collect();
        match free.is_empty() {
            true => dice.host_but(&[self.source()]),
            false => dice.pick(&free),
        }
    }

    /// A plan, with this supposition broken in most runs where one is given, else any one in some runs.
    pub fn drawn(dice: &mut Dice, broken: Option<Supposition>) -> Plan {
        let members = 2 + dice.below(u64::from(HOSTS) - 1) as usize;
        let cues = 2 + dice.number(NUMBERS as u64 - 1);
        let spoils = spoils(dice, broken);
        let unquiet = spoils == Some(Supposition::Unquiet);
        let mut plan = Plan {
            hosts: hosts(dice, members),
            params: params(dice, members),
            offsets: offsets(dice, members),
            way: dice.pick(&[0, 1, 10, 40, 160, 160, 400, 1000, 4000]),
            late: dice.pick(&[0, 0, 1, 4, 40, 400]),
            period: dice.pick(&[100, 400, 1000, 4000, 40_000]),
            ways: Style::drawn(dice),
            lates: Style::drawn(dice),
            draws: Style::drawn(dice),
            reports: dice.pick(&[Style::Least, Style::Most, Style::Most, Style::Any]),
            losses: Losses::None,
            distances: distances(dice),
            cues,
            apart: dice.pick(&[10, 200, 2000, 20_000]),
            lacked: 1 + dice.number(u64::from(cues) - 1),
            cues_lost: dice.pick(&[0, 20, 50]),
            reports_lost: dice.pick(&[0, 0, 20, 60]),
            reporters: dice.below(members as u64 + 1) as usize,
            rounds: 1 + dice.below(10),
            strangers: dice.pick(&[0, 0, 2, 10]),
            beat: dice.one_in(5),
            paired: unquiet || dice.one_in(3),
            early: unquiet || dice.one_in(5),
            spoils,
        };
        if plan.early && dice.one_in(2) {
            plan.narrow(dice);
        }
        plan.losses = plan.losses(dice);
        plan
    }

    /// Long quiet times, of requests and of replies, short ways and the greatest draws: rounds 1 to J all count.
    fn narrow(&mut self, dice: &mut Dice) {
        self.params = vec![narrow_params(dice); self.hosts.len()];
        self.way = dice.pick(&[0, 1, 10]);
        self.late = dice.pick(&[0, 1, 4]);
        self.distances = Distances::Even(dice.pick(&[40, 100, 400, 1000]));
        (self.ways, self.lates, self.draws) = (Style::Most, Style::Most, Style::Most);
    }

    fn losses(&self, dice: &mut Dice) -> Losses {
        let span = 400 + 8 * self.way as u64 + self.apart as u64;
        match dice.below(8) {
            0 | 1 => Losses::None,
            2 | 3 => {
                let count = 1 + dice.below(4);
                Losses::Times((0..count).map(|_| dice.below(3 * count)).collect())
            }
            4 => Losses::Times((0..1 + dice.below(5)).collect()),
            5 | 6 => {
                let from = START + dice.below(2 * span) as Time;
                let long = dice.pick(&[1, 4, 16]) * span;
                Losses::Outage(from, from + dice.below(long) as Time)
            }
            _ => {
                let rate = dice.pick(&[10, 40, 80]);
                Losses::Rate(rate, START + dice.below(20 * span) as Time)
            }
        }
    }

    /// A distance for a pair of members, in milliseconds.
    pub fn distance(&self, dice: &mut Dice) -> Option<u64> {
        match self.distances {
            Distances::First => None,
            Distances::Even(d) => Some(d),
            Distances::Mixed => Some(dice.pick(&[1, 5, 10, 40, 100, 300, 1000])),
        }
    }
}

/// What is broken: what is given, in most runs, else anything, in some.
fn spoils(dice: &mut Dice, broken: Option<Supposition>) -> Option<Supposition> {
    match broken {
        Some(one) => (!dice.one_in(4)).then_some(one),
        None => dice.one_in(3).then(|| dice.pick(ALL).0),
    }
}

fn distances(dice: &mut Dice) -> Distances {
    let d = dice.pick(&[1, 3, 10, 40, 100, 400, 1000]);
    dice.weighted(&[
        (2, Distances::First),
        (2, Distances::Even(d)),
        (2, Distances::Mixed),
    ])
}

/// Different host numbers, in any order.
fn hosts(dice: &mut Dice, members: usize) -> Vec<u8> {
    let mut left: Vec<u8> = (0..HOSTS).collect();
    let mut taken = || left.remove(dice.below(left.len() as u64) as usize);
    (0..members).map(|_| taken()).collect()
}

/// The same parameters for all members, or its own for each.
fn params(dice: &mut Dice, members: usize) -> Vec<Params> {
    let same = one_params(dice);
    let own = dice.one_in(2);
    (0..members)
        .map(|_| if own { one_params(dice) } else { same })
        .collect()
}

/// Parameters that are opened with: "C3 < C1, D1+D2+8 < 2×C1, D1+D2+D3 < 2×C1".
fn one_params(dice: &mut Dice) -> Params {
    let e = dice.pick(&[0, 0, 20, 100, 1000]);
    if dice.one_in(3) {
        return Params {
            e,
            ..Params::STANDARD
        };
    }
    let c1 = 5 + dice.small(28);
    let c2 = dice.small(33);
    let c3 = dice.small(c1.into());
    let d1 = dice.small((2 * c1 - 8).min(33).into());
    let d2 = dice.small((2 * c1 - 8 - d1).min(33).into());
    let d3 = dice.small((2 * c1 - d1 - d2).min(33).into());
    Params {
        c1,
        c2,
        c3,
        d1,
        d2,
        d3,
        e,
    }
}

/// C3 is almost C1, and D3 between C1+C2 and 2×C3: with even distances J is 2, and a holder may be quiet for all of round 1.
fn narrow_params(dice: &mut Dice) -> Params {
    let c1 = 8 + dice.small(9);
    let c2 = dice.small(2);
    let least = c1 + c2 + 1;
    Params {
        c1,
        c2,
        c3: c1 - 1,
        d1: 0,
        d2: dice.small(2),
        d3: least + dice.small(u64::from(2 * c1 - 2 - least)),
        e: 0,
    }
}

fn offsets(dice: &mut Dice, members: usize) -> Vec<Time> {
    let mut ahead = || 10_000 + dice.below(5000) as Time;
    (0..members).map(|_| ahead()).collect()
}
