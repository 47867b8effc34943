//! By when an asker knows of a number that another has: "with a report in every P ticks, i of them missed: h holds n or asks for it by
//! t0 + (i+1)P + Δ".

use super::judge::{Judge, LOSSES};
use super::log::{Call, Calls};
use super::suppose::{any_in, Request, Supposition, Trail};
use super::Time;
use crate::message::SESS;

/// What a reporter gives: from when on it has the number, by when the asker knows, and when it does.
pub struct Notice {
    pub since: Time,
    pub bound: Time,
    pub known: Option<Time>,
}

/// A report: when it was put out, and whether the asker heard one within Δ of it.
struct Report {
    time: Time,
    heard: bool,
}

impl Judge<'_> {
    /// Detected, for a reporter that has the number before the asker has heard of it, where what is supposed holds.
    pub fn notice(&self, asker: &Trail, reporter: &Calls) -> Option<Notice> {
        let number = asker.number;
        let has = reporter
            .pairs()
            .find(|(before, call)| !before.has(number) && call.after.has(number));
        let since = has?.1.time;
        let before = asker.of.at(since)?;
        if before.has(number) || !self.without.open_at(asker, since) {
            return None;
        }
        let mut calls = asker.of.calls.iter().filter(|call| call.time > since);
        let known = calls.find(|call| call.after.knows(number));
        let reports = self.reports(reporter, asker, since);
        let notice = Notice {
            since,
            bound: self.notice_bound(&reports, since)?,
            known: known.map(|call| call.time),
        };
        let fits = self.reports_in_time(&reports, &notice)
            && self.reporter_stays(reporter, &notice)
            && self.listens(asker, &notice);
        fits.then_some(notice)
    }

    /// A reporter's reports of the asker's number after a time.
    fn reports(&self, reporter: &Calls, asker: &Trail, since: Time) -> Vec<Report> {
        let way = self.log.way;
        let reports = |call: &&Call| {
            let word = call.said.filter(|word| word.kind == SESS);
            call.time > since && word.is_some_and(|word| word.number >= asker.number)
        };
        let hears = |call: &Call| {
            let word = call.heard.filter(|word| word.kind == SESS);
            word.is_some_and(|word| word.number >= asker.number && word.sender != asker.of.host)
        };
        let heard: Vec<Time> = asker
            .of
            .calls
            .iter()
            .filter(|call| hears(call))
            .map(|call| call.time)
            .collect();
        let times = reporter.calls.iter().filter(reports).map(|call| call.time);
        times
            .map(|time| Report {
                time,
                heard: any_in(&heard, time - 1, time + way),
            })
            .collect()
    }

    /// The bound with the fewest missed reports that it allows for.
    fn notice_bound(&self, reports: &[Report], since: Time) -> Option<Time> {
        let upto = |missed: i64| since + (missed + 1) * self.log.period;
        let least = (0..=i64::from(LOSSES)).find(|&missed| {
            let by = reports.iter().filter(|one| one.time <= upto(missed));
            by.filter(|one| !one.heard).count() as i64 <= missed
        });
        let missed = match self.without.leaves(Supposition::Missed) {
            true => Some(0),
            false => least,
        };
        Some(upto(missed?) + self.log.way)
    }

    /// Is there a report in every P ticks, until the asker knows or within Δ of the bound?
    fn reports_in_time(&self, reports: &[Report], notice: &Notice) -> bool {
        let period = self.log.period;
        let mut next = notice.since + period;
        for report in reports {
            if report.time > next {
                break;
            }
            next = report.time + period;
        }
        let until = notice.known.unwrap_or(Time::MAX);
        self.without.leaves(Supposition::Reports) || next > until.min(notice.bound - self.log.way)
    }

    fn reporter_stays(&self, reporter: &Calls, notice: &Notice) -> bool {
        let mut calls = reporter.pairs();
        let until = notice.bound.min(notice.known.unwrap_or(Time::MAX));
        self.without.leaves(Supposition::HolderStays)
            || !calls.any(|(before, call)| {
                let within = notice.since < call.time && call.time <= until;
                within && before.member && !call.after.member
            })
    }

    /// Does the asker stay and keep the number, and is it called after the bound?
    fn listens(&self, asker: &Trail, notice: &Notice) -> bool {
        let until = notice.bound.min(notice.known.unwrap_or(Time::MAX));
        let knows = notice.known.is_some_and(|known| known <= notice.bound);
        let (stays, keeps) = (Supposition::AskerStays, Supposition::AskerKeeps);
        self.without.stays(asker, stays, notice.since, until)
            && self.without.keeps(asker, keeps, notice.since, until)
            && (knows
                || self.without.leaves(Supposition::Called)
                || asker.of.last_time() > notice.bound)
    }
}

/// The notices after which the request is the asker's first word of the number.
pub fn notified<'a>(request: &Request, notices: &'a [Notice]) -> Vec<&'a Notice> {
    let asked = request.first().set;
    let fits = |one: &&Notice| one.known == Some(asked) && asked <= one.bound;
    notices.iter().filter(fits).collect()
}
