//! The claims, held against a finished run: where what is supposed holds, was the cue there by the bound?
//!
//! What is supposed is looked at until the cue is there or the bound is passed. Each bound is as small as the run allows: reach, far and
//! near are the greatest and least distances that were found.

use super::bounds::{factor, of, Terms};
use super::detect::{notified, Notice};
use super::log::{Calls, Log, NUMBERS};
use super::suppose::{late_in, Request, Supposition, Trail, Without};
use super::Time;

macro_rules! claims {
    ($($one:ident $name:literal,)*) => {
        #[derive(Clone, Copy, Debug, PartialEq, Eq)]
        pub enum Claim { $($one),* }

        pub const CLAIMS: &[(Claim, &str)] = &[$((Claim::$one, $name)),*];
    };
}

claims! {
    Answered "Answered",
    Steady "Steady",
    Recovers "Recovers",
    AfterOutage "AfterOutage",
    Express "ExpressRecovers",
    AnsweredAmong "AnsweredAmong",
    RecoversAmong "RecoversAmong",
    AfterOutageAmong "AfterOutageAmong",
    Detected "Detected",
    Timely "TimelyRecovery",
    TimelyAmong "TimelyRecovery, several holders",
    SteadyRecovery "SteadyRecovery",
}

/// A claim whose suppositions hold in a run: since when the bound counts, the bound, and when the cue was there.
#[derive(Clone, Copy, Debug, PartialEq, Eq)]
pub struct Verdict {
    pub claim: Claim,
    /// k: at so many times something was lost.
    pub losses: u32,
    pub since: Time,
    pub bound: Time,
    pub met: Option<Time>,
}

impl Verdict {
    pub fn beyond(&self) -> bool {
        self.met.is_none_or(|met| met > self.bound)
    }
}

/// More losses are not looked at.
pub const LOSSES: u32 = 12;

/// An asker's request, and the ends that may answer it.
struct Matter<'a> {
    asker: &'a Trail<'a>,
    request: &'a Request,
    holders: Vec<&'a Trail<'a>>,
}

pub struct Judge<'a> {
    pub log: &'a Log,
    pub without: Without,
    verdicts: Vec<Verdict>,
}

/// The claims on a run, with one supposition left out or none.
pub fn judged(log: &Log, without: Without) -> Vec<Verdict> {
    let mut judge = Judge {
        log,
        without,
        verdicts: vec![],
    };
    for number in 0..NUMBERS as u16 {
        let trails: Vec<Trail> = log
            .ends
            .iter()
            .map(|end| Trail::of(log, end, number))
            .collect();
        for asker in trails.iter().filter(|trail| trail.of.host != log.source) {
            judge.asker(asker, &trails);
        }
    }
    judge.verdicts
}

impl<'a> Judge<'a> {
    fn asker(&mut self, asker: &Trail, trails: &[Trail]) {
        let others = || trails.iter().filter(|one| one.of.host != asker.of.host);
        let notices: Vec<Notice> = others()
            .filter_map(|one| self.notice(asker, one.of))
            .collect();
        for notice in &notices {
            let (since, bound, met) = (notice.since, notice.bound, notice.known);
            self.enter(Claim::Detected, 0, since, bound, met);
        }
        for request in &asker.requests {
            let lists = others().map(|one| vec![one]);
            let all: Option<Vec<&Trail>> = Some(others().collect());
            for holders in lists.chain(all.filter(|all| all.len() > 1)) {
                let matter = Matter {
                    asker,
                    request,
                    holders,
                };
                self.matter(matter, &notices);
            }
        }
    }

    fn matter(&mut self, matter: Matter, notices: &[Notice]) {
        if matter.holders.len() == 1 {
            self.express(&matter);
            self.steady(&matter, notices);
        }
        self.answered(&matter);
        self.recovers(&matter, notices);
        self.after_outage(&matter);
    }

    fn enter(&mut self, claim: Claim, losses: u32, since: Time, bound: Time, met: Option<Time>) {
        self.verdicts.push(Verdict {
            claim,
            losses,
            since,
            bound,
            met,
        });
    }
}

/// What the claims share.
impl Judge<'_> {
    /// The bounds' terms, by what was found until the cue was there; far and near by the rounds of the request.
    fn terms(&self, matter: &Matter, rounds: usize) -> Terms {
        let until = matter.request.got.unwrap_or(Time::MAX);
        let from = match self.without.leaves(Supposition::Settled) {
            true => matter.request.first().set,
            false => Time::MIN,
        };
        let found = matter
            .holders
            .iter()
            .flat_map(|holder| &holder.found)
            .filter(|&&(time, _)| (from..=until).contains(&time))
            .map(|&(_, distance)| distance);
        let rounds = &matter.request.rounds[..rounds];
        let distances = rounds.iter().map(|round| round.distance);
        let [c1, c2, c3, ..] = of(&matter.asker.of.params);
        let most = |quarters: fn(&[i64; 6]) -> i64| {
            let all = matter.holders.iter().map(|one| of(&one.of.params));
            let all = all.map(|params| quarters(&params));
            self.extreme(Supposition::Alike, all, true)
        };
        Terms {
            way: self.log.way,
            late: self.log.late,
            reach: self.extreme(Supposition::Reach, found, true),
            far: self.extreme(Supposition::Far, distances.clone(), true),
            near: self.extreme(Supposition::Near, distances, false),
            asks: c1 + c2,
            quiet: c3,
            replies: most(|[_, _, _, d1, d2, _]| d1 + d2),
            hush: most(|&[_, _, _, _, _, d3]| d3),
        }
    }

    /// The greatest of some numbers, or the least; the other one where what is supposed of them is left out.
    fn extreme(&self, what: Supposition, all: impl Iterator<Item = i64>, greatest: bool) -> i64 {
        let one = if greatest != self.without.leaves(what) {
            all.max()
        } else {
            all.min()
        };
        one.unwrap_or(0)
    }

    /// Y, or 0 where it is left out.
    fn back(&self, terms: &Terms) -> Time {
        match self.without.leaves(Supposition::Back) {
            true => 0,
            false => terms.back(),
        }
    }

    /// The holders that have the cue at a time; none where the list is too short for what is asked.
    fn holding<'b>(&self, matter: &Matter<'b>, at: Time) -> Option<Vec<&'b Trail<'b>>> {
        let all = matter.holders.iter().copied();
        let holding: Vec<&Trail> = all
            .filter(|holder| self.without.holds_at(holder, at))
            .collect();
        let enough = holding.len() >= matter.holders.len().min(2);
        enough.then_some(holding)
    }

    /// Do asker and holders do what is supposed of them, after a time and until the cue is there or the bound is passed?
    fn fits(&self, matter: &Matter, holders: &[&Trail], from: Time, bound: Time) -> bool {
        let until = bound.min(matter.request.got.unwrap_or(Time::MAX));
        self.without.asker_fits(matter.asker, from, until)
            && holders
                .iter()
                .all(|holder| self.without.holder_fits(holder, from, until))
            && self.called(matter.asker.of, matter, bound)
            && holders
                .iter()
                .all(|holder| self.called(holder.of, matter, bound))
    }

    /// Is an end called after the bound? Where the cue is there by then it does not matter.
    fn called(&self, one: &Calls, matter: &Matter, bound: Time) -> bool {
        let there = matter.request.got.is_some_and(|got| got <= bound);
        there || self.without.leaves(Supposition::Called) || one.last_time() > bound
    }

    /// How many of the times at which something is lost count: after a time, and so early that within Δ the cue is not there and the bound
    /// not passed.
    fn lost(&self, lost: &[Time], got: Option<Time>, from: Time, bound: Time) -> u32 {
        let until = bound.min(got.unwrap_or(Time::MAX)) - self.log.way;
        let count = lost.iter().filter(|&&time| from < time && time <= until);
        count.count() as u32
    }

    /// The least k with which the bound allows for all losses after a time, with the bound.
    fn least(
        &self,
        lost: &[Time],
        got: Option<Time>,
        from: Time,
        bound: impl Fn(u32) -> Time,
    ) -> Option<(u32, Time)> {
        (0..=LOSSES)
            .map(|losses| (losses, bound(losses)))
            .find(|&(losses, bound)| self.lost(lost, got, from, bound) <= losses)
    }
}

/// The claims on an asker and its holders.
impl Judge<'_> {
    /// Answered: "a request that waits later than t1 + Y, with nothing lost since t1, is Got by due + Λ + A".
    fn answered(&mut self, matter: &Matter) {
        let terms = self.terms(matter, matter.request.rounds.len());
        let among = matter.holders.len() > 1;
        let claim = if among {
            Claim::AnsweredAmong
        } else {
            Claim::Answered
        };
        let got = matter.request.got;
        for round in &matter.request.rounds {
            let Some(asked) = round.asked else { continue };
            let from = asked - self.back(&terms) - 1;
            let bound = terms.answered(round.due);
            let Some(holders) = self.holding(matter, from) else {
                continue;
            };
            let lost = self.without.losses(matter.asker, &holders, self.log.way);
            if self.without.open_at(matter.asker, from)
                && self.lost(&lost, got, from, bound) == 0
                && self.fits(matter, &holders, from, bound)
            {
                self.enter(claim, 0, round.set, bound, got);
            }
        }
    }

    /// Steady: "first asked at t0: Got by t0 + F(C1+C2)far + 2Δ + (D1+D2)reach + 2Λ", where nothing is lost for Y before and the holder has
    /// the cue; SteadyRecovery: the same from the cue on.
    fn steady(&mut self, matter: &Matter, notices: &[Notice]) {
        let terms = self.terms(matter, 1);
        let first = *matter.request.first();
        let from = first.set - self.back(&terms);
        let got = matter.request.got;
        let Some(holders) = self.holding(matter, from) else {
            return;
        };
        let lost = self.without.losses(matter.asker, &holders, self.log.way);
        if !self.without.open_at(matter.asker, from) {
            return;
        }
        let holds = |judge: &Self, bound: Time| {
            judge.lost(&lost, got, from, bound) == 0 && judge.fits(matter, &holders, from, bound)
        };
        let bound = terms.steady(first.set, first.round);
        if holds(self, bound) {
            self.enter(Claim::Steady, 0, first.set, bound, got);
        }
        for notice in notified(matter.request, notices) {
            let bound = terms.steady(notice.bound, 2);
            if holds(self, bound) {
                self.enter(Claim::SteadyRecovery, 0, notice.since, bound, got);
            }
        }
    }

    /// Recovers: "losses at k times after t0: Got by t0 + (2^(J+k)−1)(C1+C2)far + (J+k)Λ + A"; TimelyRecovery: the same from the cue on.
    fn recovers(&mut self, matter: &Matter, notices: &[Notice]) {
        let terms = self.terms(matter, matter.request.rounds.len());
        let long = match self.without.leaves(Supposition::LongRound) {
            true => Some(2),
            false => terms.long_round(),
        };
        let first = *matter.request.first();
        let (from, got) = (first.set, matter.request.got);
        let (Some(long), Some(holders)) = (long, self.holding(matter, from)) else {
            return;
        };
        if !self.without.open_at(matter.asker, from) {
            return;
        }
        let among = matter.holders.len() > 1;
        let [recovers, timely] = match among {
            true => [Claim::RecoversAmong, Claim::TimelyAmong],
            false => [Claim::Recovers, Claim::Timely],
        };
        let lost = self.without.losses(matter.asker, &holders, self.log.way);
        let starts = notified(matter.request, notices);
        let starts = starts.iter().map(|one| (timely, one.since, one.bound));
        let all: Vec<_> = [(recovers, from, from)].into_iter().chain(starts).collect();
        for (claim, since, start) in all {
            let bound = |losses| terms.recovers(start, long, losses);
            let Some((losses, bound)) = self.least(&lost, got, from, bound) else {
                continue;
            };
            if self.fits(matter, &holders, from, bound) {
                self.enter(claim, losses, since, bound, got);
            }
        }
    }

    /// AfterOutage: "whatever was lost up to t1 and nothing since: Got by t1 + Y + F(C1+C2)far + Λ + A".
    fn after_outage(&mut self, matter: &Matter) {
        let terms = self.terms(matter, matter.request.rounds.len());
        let first = *matter.request.first();
        let got = matter.request.got;
        let Some((earliest, holders)) = self.settled(matter, first.set - terms.back()) else {
            return;
        };
        let claim = match holders.len() {
            1 => Claim::AfterOutage,
            _ => Claim::AfterOutageAmong,
        };
        let lost = self.without.losses(matter.asker, &holders, self.log.way);
        let later = lost.iter().copied().filter(|&time| time > earliest);
        let overs: Vec<Time> = [earliest].into_iter().chain(later).collect();
        for over in overs {
            let there = got.is_some_and(|got| got <= over);
            let mut all = holders.iter();
            if there
                || !self.without.open_at(matter.asker, over)
                || !all.all(|holder| self.without.holds_at(holder, over))
            {
                continue;
            }
            let most = match self.without.leaves(Supposition::Outlasts) {
                true => factor(first.round),
                false => terms.outlasting(first.set, first.round, over),
            };
            let bound = terms.outage(over, most);
            if self.lost(&lost, got, over, bound) == 0 && self.fits(matter, &holders, over, bound) {
                self.enter(claim, 0, first.set, bound, got);
            }
        }
    }

    /// The earliest time, not before a given one, at which the source is open at the asker and holders have the cue; with these.
    fn settled<'b>(&self, matter: &Matter<'b>, from: Time) -> Option<(Time, Vec<&'b Trail<'b>>)> {
        let until = matter.request.got.unwrap_or(Time::MAX);
        let ends = matter.holders.iter().map(|one| one.of);
        let calls = ends.chain([matter.asker.of]).flat_map(|end| &end.calls);
        let mut times: Vec<Time> = calls.map(|call| call.time).collect();
        times.push(from);
        times.retain(|&time| from <= time && time < until);
        times.sort_unstable();
        let open = |time: Time| self.without.open_at(matter.asker, time);
        times
            .into_iter()
            .filter(|&time| open(time))
            .find_map(|time| {
                let holders = self.holding(matter, time)?;
                Some((time, holders))
            })
    }

    /// ExpressRecovers: "an express wait answered: Got by its due time + Λ + 2Δ".
    fn express(&mut self, matter: &Matter) {
        let Some(due) = matter.request.express else {
            return;
        };
        let (asker, holder) = (matter.asker, matter.holders[0]);
        let (since, got) = (matter.request.first().set, matter.request.got);
        let terms = self.terms(matter, 1);
        let bound = terms.express(due);
        let until = bound.min(got.unwrap_or(Time::MAX));
        let mut said = self.without.expresses(asker);
        let said = said.find(|&(time, host)| time >= since && host == holder.of.host);
        let Some((asked, _)) = said.filter(|&(time, _)| time <= until) else {
            return;
        };
        let in_time = self.without.leaves(Supposition::AsksInTime)
            || !late_in(&asker.express_late, since, until);
        let without = &self.without;
        if in_time
            && without.open_at(asker, since)
            && without.stays(asker, Supposition::AskerStays, since, until)
            && without.keeps(asker, Supposition::AskerKeeps, since, until)
            && self.express_answered(matter, asked)
            && self.called(asker.of, matter, bound)
            && self.called(holder.of, matter, bound)
        {
            self.enter(Claim::Express, 0, since, bound, got);
        }
    }

    /// Is the express request of a time heard by the holder within Δ and answered at once, and this heard by the asker within Δ?
    fn express_answered(&self, matter: &Matter, asked: Time) -> bool {
        use crate::message::{REPL, XPRS};
        let (way, holder) = (self.log.way, matter.holders[0]);
        let leaves = |one| self.without.leaves(one);
        let number = holder.number;
        let mut heard = holder.of.pairs().filter(|(_, call)| {
            let word = call.heard.filter(|word| word.is(XPRS, number));
            (asked..=asked + way).contains(&call.time)
                && word.is_some_and(|word| {
                    word.sender == matter.asker.of.host && word.host == holder.of.host
                })
        });
        let Some((before, call)) = heard.next() else {
            return leaves(Supposition::RequestsReach) && self.without.holds_at(holder, asked);
        };
        let held = before.member && before.of_number(number).held;
        if call.said.is_none_or(|word| !word.is(REPL, number)) {
            return held && leaves(Supposition::Unquiet) || !held && leaves(Supposition::Holds);
        }
        let within = call.time..=call.time + way;
        leaves(Supposition::RepairsReach)
            || matter
                .asker
                .repairs
                .iter()
                .any(|one| within.contains(&one.time) && one.sender != matter.asker.of.host)
    }
}
