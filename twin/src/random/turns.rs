//! When requests get their turns, in random networks of eight ends (document 02, P12): how long after round 1 each round is set, against
//! the bound.
//!
//! A run draws a network: the members, the ways between them, how often what is lost. Source 0 sends cues; all report now and then, so that
//! distances change. Every end fires what is due when it is due, as the request supposes; what it supposes beside is looked at as it goes.

use std::collections::BTreeMap;
use std::fmt::Write;

use super::dice::Dice;
use crate::cue::Cue;
use crate::end::{Answer, Body, End, Event, Params, LAST_ROUND};
use crate::message::{DATA, REPL, RQST, SESS, XPRS};
use crate::waiting::bound;
use crate::{Draw, DRAWS, OUTPUT_LEN};

/// The runs that docs/RECOVERY.md shows.
pub const RUNS: u64 = 1000;

const ENDS: usize = 8;

/// A round that was set: round k+1, so many ticks after round 1, and the bound by the greatest distance since.
#[derive(Clone, Copy, Debug, PartialEq, Eq)]
pub struct Turn {
    pub k: u8,
    pub ticks: u64,
    pub bound: u64,
}

/// A request since its round 1: when that was set, the greatest distance to the source since, and the round that waits.
#[derive(Clone, Copy)]
struct Watched {
    since: u64,
    farthest: u64,
    round: u8,
}

/// What the network of a run is like: of 100 messages of a kind so many are lost; ways take up to so many ticks.
struct Network {
    lost: BTreeMap<u8, u64>,
    way: [[u64; ENDS]; ENDS],
}

impl Network {
    fn drawn(dice: &mut Dice) -> Network {
        let longest = dice.pick(&[40, 160, 400, 1000, 4000]);
        let way = std::array::from_fn(|_| std::array::from_fn(|_| 1 + dice.below(longest)));
        let lost = [
            (DATA, dice.pick(&[10, 30])),
            (RQST, dice.pick(&[0, 20, 100])),
            (XPRS, dice.pick(&[0, 20, 100])),
            (REPL, dice.pick(&[0, 50, 90, 100])),
            (SESS, 10),
        ];
        Network {
            lost: lost.into(),
            way,
        }
    }
}

/// What happens at a tick: an end hears a message, sends or reports. What is due is fired beside.
enum Happens {
    Hears(usize, Vec<u8>),
    Sends,
    Reports(usize),
}

struct Run {
    dice: Dice,
    network: Network,
    ends: Vec<End>,
    now: u64,
    agenda: BTreeMap<u64, Vec<Happens>>,
    watched: BTreeMap<(usize, u8, u16), Watched>,
    turns: Vec<Turn>,
}

/// The turns of a seed's run.
pub fn turns(seed: u64) -> Vec<Turn> {
    let mut dice = Dice::seeded(seed);
    let network = Network::drawn(&mut dice);
    let members = 2 + dice.below(7) as usize;
    let until = 1 << (16 + dice.below(11));
    let mut run = Run {
        ends: (0..members as u8)
            .map(|host| End::open(host, Params::STANDARD).1)
            .collect(),
        dice,
        network,
        now: 0,
        agenda: BTreeMap::new(),
        watched: BTreeMap::new(),
        turns: Vec::new(),
    };
    for host in 0..members {
        run.call(host, &Event::Join);
        run.call(host, &Event::Joined);
        for _ in 0..2 {
            let tick = run.dice.below(8000);
            run.plan(tick, Happens::Reports(host));
        }
    }
    for cue in 0..12 {
        let tick = 20_000 + 1000 * cue + run.dice.below(1000);
        run.plan(tick, Happens::Sends);
    }
    run.plays(until);
    run.turns
}

impl Run {
    fn plan(&mut self, tick: u64, happens: Happens) {
        self.agenda.entry(tick).or_default().push(happens);
    }

    /// Plays what happens and what is due, in the order of time.
    fn plays(&mut self, until: u64) {
        loop {
            let planned = self.agenda.keys().next().copied();
            let due = self.ends.iter().filter_map(End::first_due).min();
            let next = planned.into_iter().chain(due).min();
            let Some(tick) = next.filter(|&tick| tick <= until) else {
                break;
            };
            self.now = tick;
            for happens in self.agenda.remove(&tick).unwrap_or_default() {
                self.play(happens);
            }
            for host in 0..self.ends.len() {
                while self.ends[host].first_due().is_some_and(|due| due <= tick) {
                    self.call(host, &Event::Fire);
                }
            }
        }
    }

    fn play(&mut self, happens: Happens) {
        match happens {
            Happens::Hears(host, bytes) => self.call(host, &Event::Arrival(bytes)),
            Happens::Sends => self.call(0, &Event::Send(Cue::ZERO)),
            Happens::Reports(host) => {
                self.call(host, &Event::Report);
                // Ever less often, so that a long run has few reports and distances still change.
                let next = self.now + 2000 + self.dice.below(2 * self.now + 2000);
                self.plan(next, Happens::Reports(host));
            }
        }
    }

    /// An event on an end; what it puts out is on its way to all others, but for what is lost.
    fn call(&mut self, host: usize, event: &Event) {
        let draws: [Draw; DRAWS] = std::array::from_fn(|_| self.dice.below(65_536) as Draw);
        let mut out = [0; OUTPUT_LEN];
        let distances = self.ends[host].sources.map(|source| source.distance);
        let answer = self.ends[host].event(event, self.now, &draws, &mut out);
        self.look(host, &distances);
        if let Answer::Out(length) = answer {
            for to in (0..self.ends.len()).filter(|&to| to != host) {
                self.carry(host, to, &out[..length]);
            }
        }
    }

    fn carry(&mut self, from: usize, to: usize, bytes: &[u8]) {
        let of_100 = self.network.lost.get(&bytes[0]).copied().unwrap_or(0);
        if self.dice.below(100) < of_100 {
            return;
        }
        let way = self.network.way[from][to];
        let arrives = self.now + way + self.dice.below(1 + way / 4);
        self.plan(arrives, Happens::Hears(to, bytes.to_vec()));
    }

    /// After a call on an end, which found these distances: the rounds that it has set.
    fn look(&mut self, host: usize, distances: &[u64; 8]) {
        let end = &self.ends[host];
        let waiting = |source: u8, number: u16| {
            let kept = end.sources[usize::from(source)].kept(number);
            match kept.map(|record| record.body) {
                Some(Body::Waiting(request)) => Some(request.round),
                _ => None,
            }
        };
        self.watched
            .retain(|&(of, source, number), _| of != host || waiting(source, number).is_some());
        let mut rounds = Vec::new();
        for source in (0..8).filter(|&source| source != end.host) {
            let numbers = end.sources[usize::from(source)].numbers();
            rounds
                .extend(numbers.filter_map(|n| waiting(source, n).map(|round| (source, n, round))));
        }
        for (source, number, round) in rounds {
            let distance = distances[usize::from(source)];
            self.waits((host, source, number), round, distance);
        }
    }

    /// After a call that found this distance the request of a name waits in this round.
    fn waits(&mut self, name: (usize, u8, u16), round: u8, distance: u64) {
        let Some(watched) = self.watched.get_mut(&name) else {
            if round == 1 {
                let since = self.now;
                let farthest = distance;
                self.watched.insert(
                    name,
                    Watched {
                        since,
                        farthest,
                        round,
                    },
                );
            }
            return;
        };
        watched.farthest = watched.farthest.max(distance);
        let turn = Turn {
            k: watched.round,
            ticks: self.now - watched.since,
            bound: bound(&Params::STANDARD, watched.farthest, watched.round),
        };
        if round == watched.round + 1 {
            watched.round = round;
            self.turns.push(turn);
        } else if round < LAST_ROUND {
            assert!(
                turn.ticks <= turn.bound,
                "a request waits past its bound: {name:?}"
            );
        }
    }
}

/// What many runs gave, as tables: how many rounds were set for each k, how near to the bound on average and at most; and how many came how
/// near. Beside it how many came later than the bound.
pub fn measured(runs: u64) -> (String, usize) {
    let all: Vec<Turn> = (1..=runs).flat_map(turns).collect();
    let late = all.iter().filter(|turn| turn.ticks > turn.bound).count();
    let heading = format!(
        "{runs} runs, {} rounds set, {late} of them later than the bound.",
        all.len()
    );
    (
        format!("{heading}\n\n{}\n{}", by_round(&all), by_share(&all)),
        late,
    )
}

/// How much of the bound a turn took, in percent.
fn share(turn: &Turn) -> f64 {
    100.0 * turn.ticks as f64 / turn.bound as f64
}

fn by_round(all: &[Turn]) -> String {
    let mut text =
        String::from("| k | rounds set | of the bound, mean | greatest |\n|---|---:|---:|---:|\n");
    for k in 1..LAST_ROUND {
        let shares: Vec<f64> = all.iter().filter(|turn| turn.k == k).map(share).collect();
        let count = shares.len();
        let mean = shares.iter().sum::<f64>() / count.max(1) as f64;
        let most = shares.iter().copied().fold(0.0, f64::max);
        let _ = writeln!(text, "| {k} | {count} | {mean:.1} % | {most:.2} % |");
    }
    text
}

fn by_share(all: &[Turn]) -> String {
    let mut text = String::from("| of the bound | rounds set |\n|---|---:|\n");
    for to in (10..=100).step_by(10) {
        let so_near = |turn: &&Turn| (f64::from(to - 10)..f64::from(to)).contains(&share(turn));
        let count = all.iter().filter(so_near).count();
        let _ = writeln!(text, "| {} to {to} % | {count} |", to - 10);
    }
    let whole = all.iter().filter(|turn| turn.ticks == turn.bound).count();
    let _ = writeln!(text, "| the bound itself | {whole} |");
    text
}
