//! What many runs gave: for each claim how often its suppositions held, how often the bound was missed or met exactly, and how near it came.

use std::fmt::Write;

use super::judge::{judged, Claim, Verdict, CLAIMS};
use super::run::played;
use super::suppose::{Supposition, Without, ALL};

/// Shares of a bound are counted by the percent.
const PERCENT: usize = 101;

/// What was counted of a claim.
#[derive(Clone, Debug)]
pub struct Counted {
    pub held: u64,
    pub beyond: u64,
    pub exact: u64,
    pub greatest: f64,
    /// How many used up so many percent of the bound.
    pub shares: [u64; PERCENT],
}

impl Counted {
    const NONE: Counted = Counted {
        held: 0,
        beyond: 0,
        exact: 0,
        greatest: 0.0,
        shares: [0; PERCENT],
    };

    fn add(&mut self, verdict: &Verdict) {
        self.held += 1;
        let Some(met) = verdict.met.filter(|_| !verdict.beyond()) else {
            self.beyond += 1;
            return;
        };
        let (used, whole) = (met - verdict.since, verdict.bound - verdict.since);
        let share = match whole {
            0 => 100.0,
            _ => 100.0 * used as f64 / whole as f64,
        };
        self.exact += u64::from(met == verdict.bound);
        self.greatest = self.greatest.max(share);
        self.shares[share as usize] += 1;
    }

    /// The share of the bound that so many of 100 did not pass, in percent.
    pub fn quantile(&self, of_100: u64) -> usize {
        let all: u64 = self.shares.iter().sum();
        let mut seen = 0;
        let reached = self.shares.iter().position(|&count| {
            seen += count;
            100 * seen >= of_100 * all
        });
        reached.unwrap_or(0)
    }
}

/// The claims by losses, from 0 to this or more.
pub const LOSSES: usize = 4;

#[derive(Clone, Debug)]
pub struct Tally {
    /// The first seed, and how many there are.
    pub from: u64,
    pub runs: u64,
    /// For each claim and k, in the order of `CLAIMS`.
    counted: Vec<[Counted; LOSSES + 1]>,
    /// The first few that were beyond, with their seeds.
    pub beyond: Vec<(u64, Verdict)>,
}

/// So many of those beyond are kept.
const SHOWN: usize = 20;

impl Tally {
    /// The runs of seeds from one on, with a supposition left out and broken, or none.
    pub fn of(from: u64, runs: u64, without: Option<Supposition>) -> Tally {
        let mut tally = Tally {
            from,
            runs,
            counted: vec![[Counted::NONE; LOSSES + 1]; CLAIMS.len()],
            beyond: vec![],
        };
        for seed in from..from + runs {
            let log = played(seed, without);
            for verdict in judged(&log, Without(without)) {
                tally.add(seed, verdict);
            }
        }
        tally
    }

    fn add(&mut self, seed: u64, verdict: Verdict) {
        let losses = LOSSES.min(verdict.losses as usize);
        self.counted[verdict.claim as usize][losses].add(&verdict);
        if verdict.beyond() && self.beyond.len() < SHOWN {
            self.beyond.push((seed, verdict));
        }
    }

    /// What was counted of a claim, whatever k.
    pub fn claim(&self, claim: Claim) -> Counted {
        let mut sum = Counted::NONE;
        for one in &self.counted[claim as usize] {
            sum.held += one.held;
            sum.beyond += one.beyond;
            sum.exact += one.exact;
            sum.greatest = sum.greatest.max(one.greatest);
            for (share, count) in sum.shares.iter_mut().zip(one.shares) {
                *share += count;
            }
        }
        sum
    }

    /// How many were beyond, of all claims.
    pub fn missed(&self) -> u64 {
        CLAIMS.iter().map(|&(one, _)| self.claim(one).beyond).sum()
    }

    /// The claims, and those with losses by k.
    pub fn table(&self) -> String {
        let mut text = String::from(
            "| claim | instances | beyond the bound | met exactly | of the bound, half of them up to | greatest |\n\
             |---|---:|---:|---:|---:|---:|\n",
        );
        for &(claim, name) in CLAIMS {
            row(&mut text, name, &self.claim(claim));
            let by_losses = &self.counted[claim as usize];
            if by_losses[1..].iter().all(|one| one.held == 0) {
                continue;
            }
            for (losses, counted) in by_losses.iter().enumerate() {
                let more = if losses == LOSSES { " and more" } else { "" };
                row(&mut text, &format!(".. k = {losses}{more}"), counted);
            }
        }
        text
    }
}

fn row(text: &mut String, name: &str, counted: &Counted) {
    let _ = writeln!(
        text,
        "| {name} | {} | {} | {} | {} % | {:.2} % |",
        counted.held,
        counted.beyond,
        counted.exact,
        counted.quantile(50),
        counted.greatest
    );
}

/// The columns of the table of what is needed, with the claims that each sums up.
const COLUMNS: [(&str, &[Claim]); 7] = [
    ("Answered", &[Claim::Answered, Claim::AnsweredAmong]),
    ("Steady", &[Claim::Steady]),
    ("Recovers", &[Claim::Recovers, Claim::RecoversAmong]),
    (
        "AfterOutage",
        &[Claim::AfterOutage, Claim::AfterOutageAmong],
    ),
    ("Express", &[Claim::Express]),
    ("Detected", &[Claim::Detected]),
    (
        "from the cue",
        &[Claim::Timely, Claim::TimelyAmong, Claim::SteadyRecovery],
    ),
];

/// The suppositions, each left out and broken in runs of its own: how many instances there were, and how many of them were beyond the bound
/// of which claim. Beside the table, whether there were some for each.
pub fn needed(from: u64, runs: u64) -> (String, bool) {
    let mut text = String::from("| left out | instances |");
    for (name, _) in COLUMNS {
        let _ = write!(text, " {name} |");
    }
    let _ = writeln!(text, "\n|---|---:|{}", "---:|".repeat(COLUMNS.len()));
    let mut all = true;
    for &(one, name, _) in ALL {
        let tally = Tally::of(from, runs, Some(one));
        let claims = CLAIMS.iter().map(|&(claim, _)| tally.claim(claim));
        let held: u64 = claims.map(|counted| counted.held).sum();
        let _ = write!(text, "| {name} | {held} |");
        for (_, claims) in COLUMNS {
            let beyond = claims.iter().map(|&claim| tally.claim(claim).beyond);
            let _ = write!(text, " {} |", beyond.sum::<u64>());
        }
        text.push('\n');
        all &= tally.missed() > 0;
    }
    (text, all)
}

/// The suppositions in words.
pub fn suppositions() -> String {
    let mut text = String::from("| name | what is supposed |\n|---|---|\n");
    for (_, name, words) in ALL {
        let _ = writeln!(text, "| {name} | {words} |");
    }
    text
}
