//! Random runs, written as traces (docs/TRACES.md). A run plays what it draws on the twin's ends, so that it knows their states and what
//! they put out, and holds the calls on the eight ends against the book.
//!
//! A run has eight ends that only events change (places 0 to 7), a spare end whose fields `set` lines change too (place 8), and a copy that
//! is used for a few calls and dropped (place 9).

mod announcing;
mod changes;
mod codec;
mod defects;
pub(crate) mod dice;
pub mod displays;
mod events;
mod fetching;
mod messages;
mod partition;
pub mod records;
mod scenes;
mod seen;
mod spare;
mod stage;
pub mod turns;
pub mod windows;

use crate::book::{Book, Call};
use crate::end::{Answer, Params, Status};
use crate::trace::{Does, Verb};
use crate::CLOCK_MAX;
use dice::Dice;
use stage::{values, PutOut, Spot, Stage, Surroundings, COPY, SPARE};

/// The trace of a seed, with so many calls or a few more. The error says where the run is outside the service.
pub fn trace(seed: u64, steps: u64) -> Result<String, String> {
    let mut run = Run::start(seed);
    while run.stage.calls < steps {
        run.step();
        if let Some(fault) = run.fault {
            return Err(format!("seed {seed}: {fault}"));
        }
    }
    Ok(run.stage.text)
}

/// Something that a run does.
type Part = fn(&mut Run);

/// The parts of a run, and how many of 100 draws choose each.
const PARTS: [(u64, Part); 12] = [
    (41, Run::on_one),
    (1, Run::way),
    (1, Run::burst),
    (1, Run::late),
    (2, Run::catch_up),
    (2, Run::opening),
    (10, Run::codec),
    (1, Run::asking),
    (4, Run::asking_why),
    (8, Run::on_spare),
    (14, Run::on_changed),
    (15, Run::scene),
];

/// A run so far.
struct Run {
    dice: Dice,
    stage: Stage,
    book: Book,
    now: u64,
    /// A host that is called more than the others, whether it sends often, and whether it sends many cues at a time.
    talker: usize,
    chatty: bool,
    bursts: bool,
    /// How far the clock of each host is ahead.
    ahead: [u64; 8],
    fault: Option<String>,
}

impl Run {
    fn start(seed: u64) -> Run {
        let mut dice = Dice::seeded(seed);
        let now = match dice.below(8) {
            0 => CLOCK_MAX - (1 << 22),
            1 => 1 << 40,
            _ => dice.below(1000),
        };
        let mut run = Run {
            stage: Stage::start(&format!("seed {seed}")),
            book: Book::default(),
            now,
            talker: dice.below(5) as usize,
            chatty: dice.one_in(3),
            bursts: dice.one_in(2),
            ahead: std::array::from_fn(|_| dice.weighted(&[(2, 0), (1, 1000), (1, 37)])),
            fault: None,
            dice,
        };
        for host in 0..8 {
            if run.dice.one_in(4) {
                continue;
            }
            let params = run.params();
            if run.stage.open(usize::from(host), host, params).is_some() {
                run.stage.open(usize::from(host), host, Params::STANDARD);
            }
        }
        run.stage.copy(SPARE, run.talker);
        run
    }

    fn step(&mut self) {
        self.later();
        let part = self.dice.weighted(&PARTS);
        part(self);
    }

    /// The time goes on.
    fn later(&mut self) {
        let dice = &mut self.dice;
        let ticks = match dice.below(200) {
            0..=119 => dice.below(8),
            120..=179 => dice.below(120),
            180..=195 => dice.below(3000),
            196..=198 => dice.below(60_000),
            _ => match dice.below(3) {
                0 => dice.below(1 << 20),
                1 => dice.below(1 << 26),
                _ => dice.below(1 << 32),
            },
        };
        self.now = CLOCK_MAX.min(self.now + ticks);
    }

    /// What surrounds the next call. Where odd ones are allowed, questions 1 and 2 are met.
    fn surround(&mut self, odd: bool) {
        let dice = &mut self.dice;
        let mut draws = self.stage.around.draws.clone();
        let count = match odd {
            true => dice.weighted(&[(120, 64), (2, 63), (2, 65), (1, 0), (1, 66)]),
            false => 64,
        };
        if values(&draws).len() != usize::from(count) || dice.one_in(8) {
            let (first, step) = match dice.below(6) {
                0 | 1 => (dice.pick(&[0, 1, 65534, 65535]), 0),
                2 => (dice.draw(), 0),
                _ => (dice.draw(), dice.draw()),
            };
            draws = Does::Draws { count, first, step };
        }
        if odd && dice.one_in(200) {
            draws = Does::Each((0..64).map(|_| dice.draw()).collect());
        }
        let room = match odd {
            true => dice.weighted(&[(100, 128), (2, 127), (1, 0), (2, 200), (2, 129)]),
            false => 128,
        };
        let fill = match dice.one_in(12) {
            true => dice.byte(),
            false => self.stage.around.fill,
        };
        self.stage.surround(Surroundings { draws, room, fill });
    }

    /// Parameters: seldom good; long waits; short waits; the longest waits for requests, and any for replies.
    fn params(&mut self) -> Params {
        let (least, bounds) = self.dice.weighted(&[
            (1, (0, [34, 34, 34, 34, 34, 34])),
            (2, (20, [13, 33, 20, 10, 10, 14])),
            (2, (9, [8, 33, 9, 5, 5, 9])),
            (1, (32, [1, 33, 32, 33, 33, 33])),
        ]);
        let [c1, c2, c3, d1, d2, d3] = bounds.map(|n| self.dice.small(n));
        Params {
            c1: least + c1,
            c2,
            c3,
            d1,
            d2,
            d3,
            e: self.express_ticks(),
        }
    }

    /// Parameters on both sides of their three constraints.
    fn edge_params(&mut self) -> Params {
        let c1 = 5 + self.dice.small(28);
        let most = 2 * c1 - 9;
        let d1 = self.dice.small(u64::from(most) + 1).min(32);
        let d2 = (most - d1).min(32);
        let d3 = self.dice.pick(&[0, (2 * c1 - 1 - d1 - d2).min(32)]);
        let mut all = [c1, 8, c1 - 1, d1, d2, d3];
        if self.dice.one_in(2) {
            all[2 + self.dice.below(4) as usize] += 1;
        }
        let [c1, c2, c3, d1, d2, d3] = all;
        Params {
            c1,
            c2,
            c3,
            d1,
            d2,
            d3,
            e: self.express_ticks(),
        }
    }

    /// E (document 02, P8): mostly soon, its edge, now and then past it.
    fn express_ticks(&mut self) -> u16 {
        self.dice.weighted(&[
            (4, 0),
            (3, 1),
            (3, 5),
            (2, 60),
            (2, 1000),
            (1, 1001),
            (1, 65_535),
        ])
    }

    /// An opening whose end is dropped.
    fn opening(&mut self) {
        let host = match self.dice.one_in(4) {
            true => self.dice.pick(&[8, 9, 255]),
            false => self.dice.small(8),
        };
        let params = match self.dice.one_in(2) {
            true => self.params(),
            false => self.edge_params(),
        };
        self.stage.open(COPY, host, params);
    }

    /// An event on one of the eight ends.
    fn on_one(&mut self) {
        self.surround(true);
        let who = match self.dice.below(12) as usize {
            host @ 0..=7 => host,
            _ => self.talker,
        };
        let kind = self.kind(who);
        let clock = self.clock(who, kind);
        let (verb, real) = self.verb(kind, who, clock, 20);
        self.play(who, clock, verb, real);
    }

    /// Many sends of the talker, after which others hear the latest, a report or a request of it, so that windows of the eight ends move
    /// on (document 02, P7); and then what is late.
    fn burst(&mut self) {
        let who = self.talker;
        if !self.bursts || self.stage.ends[who].status != Status::Member {
            return self.on_one();
        }
        self.surround(false);
        let count = self
            .dice
            .weighted(&[(4, 10), (2, 30), (1, 63), (1, 64), (1, 65), (1, 100)]);
        for _ in 0..count {
            let cue = self.good_cue();
            self.plays(who, Verb::Send(cue));
        }
        match self.dice.below(4) {
            0 => {}
            1 => self.plays(who, Verb::Report),
            2 => self.plays(who, Verb::Announce),
            _ => self.ask_for_latest(who),
        }
        let Some(latest) = self.stage.messages.last().filter(|m| m.real).cloned() else {
            return;
        };
        for host in (0..8).filter(|&host| host != who) {
            if self.dice.one_in(2) {
                let brought = self.stage.brought(&latest);
                self.plays(host, Verb::Hear(brought));
                self.late_on(host);
            }
        }
    }

    /// The talker reports, one other hears it, and asks for what it has not; perhaps the talker answers.
    fn ask_for_latest(&mut self, who: usize) {
        self.plays(who, Verb::Report);
        let host = usize::from(self.dice.host_but(&[who as u8]));
        let Some(report) = self.stage.messages.last().cloned() else {
            return;
        };
        let brought = self.stage.brought(&report);
        self.plays(host, Verb::Hear(brought));
        self.now = CLOCK_MAX.min(self.now + 70_000);
        for _ in 0..1 + self.dice.below(3) {
            self.plays(host, Verb::Fire);
        }
        let Some(request) = self.stage.messages.last().cloned() else {
            return;
        };
        if self.dice.one_in(2) {
            let brought = self.stage.brought(&request);
            self.plays(who, Verb::Hear(brought));
            self.now = CLOCK_MAX.min(self.now + 70_000);
            self.plays(who, Verb::Fire);
        }
    }

    /// "Lost cues in one row of rooms take the same way every time" (document 02, P8): cues of the talker are lost on their way to one
    /// other, again and again; its request, or kind 21, and the repair are heard by all.
    fn way(&mut self) {
        let who = self.talker;
        let members: Vec<usize> = (0..8)
            .filter(|&host| self.stage.ends[host].status == Status::Member)
            .collect();
        let others: Vec<usize> = members.iter().copied().filter(|&h| h != who).collect();
        if others.len() == members.len() || others.is_empty() {
            return self.on_one();
        }
        self.surround(false);
        let loser = self.dice.pick(&others);
        for _ in 0..2 + self.dice.below(2) {
            if self.lost_on_way(who, loser, &others).is_none() {
                return;
            }
        }
    }

    /// One cue is lost, the next is heard; what the loser fires is heard, and what answers it. None where something of this does not come.
    fn lost_on_way(&mut self, who: usize, loser: usize, others: &[usize]) -> Option<()> {
        let cue = self.good_cue();
        let lost = self.puts_out(who, Verb::Send(cue))?;
        let cue = self.good_cue();
        let next = self.puts_out(who, Verb::Send(cue))?;
        for &host in others {
            if host != loser && !self.dice.one_in(6) {
                self.plays(host, Verb::Hear(self.stage.brought(&lost)));
            }
            self.plays(host, Verb::Hear(self.stage.brought(&next)));
        }
        let request = self.fires(loser)?;
        let hearers = others.iter().copied().chain([who]);
        let hearers: Vec<usize> = hearers.filter(|&host| host != loser).collect();
        let mut reply = None;
        for &host in &hearers {
            let heard = self.puts_out(host, Verb::Hear(self.stage.brought(&request)));
            reply = heard.or(reply);
        }
        let reply = match reply {
            Some(reply) => reply,
            None => {
                let host = self.dice.pick(&hearers);
                self.fires(host)?
            }
        };
        for host in hearers.into_iter().chain([loser]) {
            if !self.dice.one_in(6) {
                self.plays(host, Verb::Hear(self.stage.brought(&reply)));
            }
        }
        Some(())
    }

    /// The message that an event puts out, if any.
    fn puts_out(&mut self, who: usize, verb: Verb) -> Option<PutOut> {
        let before = self.stage.messages.len();
        self.plays(who, verb);
        self.stage.messages.get(before).cloned()
    }

    /// A fire at the time when the first of an end's waits is due.
    fn fires(&mut self, who: usize) -> Option<PutOut> {
        let due = self.first_due(who)?;
        if due < self.now + 100_000 {
            self.now = self.now.max(due.saturating_sub(self.ahead[who]));
        }
        self.puts_out(who, Verb::Fire)
    }

    /// An original or a repair comes late to one of the eight: of a number just inside the latest 64 of its source, or just below them.
    fn late(&mut self) {
        self.surround(false);
        let who = self.dice.below(8) as usize;
        self.late_on(who);
    }

    fn late_on(&mut self, who: usize) {
        let source = self.likely_source(who);
        let Some((_, last)) = self.stage.span(who, source) else {
            return;
        };
        let back = self.dice.pick(&[62, 63, 63, 64, 64, 65]);
        let Some(number) = last.checked_sub(back) else {
            return;
        };
        let name = Spot { source, number };
        let all = &self.stage.messages;
        let found: Vec<PutOut> = all.iter().filter(|m| m.brings(name)).cloned().collect();
        if !found.is_empty() {
            let at = self.dice.below(found.len() as u64) as usize;
            let brought = self.stage.brought(&found[at]);
            self.plays(who, Verb::Hear(brought));
        }
    }

    /// An event that the network may bring, on one of the eight, at its time.
    fn plays(&mut self, who: usize, verb: Verb) {
        let clock = CLOCK_MAX.min(self.now + self.ahead[who]);
        self.play(who, clock, verb, true);
    }

    /// Plays an event on one of the eight ends, and feeds the book. An invented message is played on a copy, unless it is refused: "An
    /// unrefused Arrival brings the bytes that an earlier Out of the list, any end's, put out."
    fn play(&mut self, who: usize, clock: u64, verb: Verb, real: bool) {
        if !real && !self.stage.refuses(who, clock, &verb) {
            self.stage.copy(COPY, who);
            self.stage.act(COPY, clock, verb);
            return;
        }
        let event = self.stage.event(&verb);
        let answer = self.stage.act(who, clock, verb);
        // "In runs where the network invents nothing, Clash is shown never to come up." (document 02, P4)
        if let Answer::Clash { .. } = answer {
            let line = self.stage.text.lines().count();
            self.fault = Some(format!("line {line} is a clash, and nothing was invented"));
        }
        let call = Call {
            host: who as u8,
            event,
            answer,
            out: self.stage.buffer.clone(),
            status: self.stage.ends[who].status,
        };
        if let Err(fault) = self.book.enter(&call) {
            let line = self.stage.text.lines().count();
            self.fault = Some(format!("line {line} is outside the service: {fault:?}"));
        }
    }
}
