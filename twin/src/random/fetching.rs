//! Fetching what came before (document 02, P9): late joiners among the eight ends, and scenes on the spare end about the edges of its rules.

use super::messages::about;
use super::stage::{PutOut, Spot, SPARE};
use super::Run;
use crate::end::{Attempt, Heard, Status};
use crate::message::{self, Message, Report};
use crate::trace::{Asked, Does, Field, Verb};
use crate::CLOCK_MAX;

/// A late joiner.
impl Run {
    /// "A controller that joined late lacks the earlier cues": one of the eight joins, or leaves and joins again, after the talker has sent;
    /// it hears an original, then sessions, and fetches.
    pub(super) fn catch_up(&mut self) {
        let who = self.talker;
        let late = usize::from(self.dice.host_but(&[who as u8]));
        if self.stage.ends[who].status != Status::Member {
            return self.on_one();
        }
        self.surround(false);
        for _ in 0..self.dice.pick(&[1, 2, 2, 4, 8]) {
            let cue = self.good_cue();
            let Some(sent) = self.puts_out(who, Verb::Send(cue)) else {
                return;
            };
            self.brings_to_some(&sent, &[who, late], 2);
        }
        self.joins(late);
        let cue = self.good_cue();
        let Some(first) = self.puts_out(who, Verb::Send(cue)) else {
            return;
        };
        self.plays(late, Verb::Hear(self.stage.brought(&first)));
        self.brings_to_some(&first, &[who, late], 2);
        self.exchange_sessions(late);
        for _ in 0..self.dice.pick(&[1, 2, 2, 3, 6]) {
            self.fetch_one(late, who);
        }
    }

    /// Comes to membership, mostly anew.
    fn joins(&mut self, late: usize) {
        let member = self.stage.ends[late].status == Status::Member;
        if member && self.dice.one_in(3) {
            return;
        }
        if member {
            self.plays(late, Verb::Leave);
        }
        for verb in [Verb::Left, Verb::Join, Verb::Joined] {
            self.plays(late, verb);
        }
    }

    /// Each of the others hears the message, but one in so many.
    fn brings_to_some(&mut self, sent: &PutOut, but: &[usize], one_in: u64) {
        for host in (0..8).filter(|host| !but.contains(host)) {
            if !self.dice.one_in(one_in) {
                self.plays(host, Verb::Hear(self.stage.brought(sent)));
            }
        }
    }

    /// The late one reports, so that the others' sessions echo it and its distances differ; their sessions come, some of them lost.
    fn exchange_sessions(&mut self, late: usize) {
        if self.dice.one_in(2) {
            let Some(report) = self.puts_out(late, Verb::Report) else {
                return;
            };
            self.now = CLOCK_MAX.min(self.now + self.dice.below(200));
            self.brings_to_some(&report, &[late], 6);
        }
        for host in (0..8).filter(|&host| host != late) {
            if self.dice.one_in(3) {
                continue;
            }
            let Some(report) = self.puts_out(host, Verb::Report) else {
                continue;
            };
            self.now = CLOCK_MAX.min(self.now + self.dice.pick(&[0, 0, 8, 100]));
            if !self.dice.one_in(6) {
                self.plays(late, Verb::Hear(self.stage.brought(&report)));
            }
        }
    }

    /// One number is fetched, perhaps again and again; what goes out, and what answers it, is lost, repeated or heard by others too.
    fn fetch_one(&mut self, late: usize, who: usize) {
        let Some(origin) = self.stage.origin(late, who as u8) else {
            return;
        };
        let any = 1 + self.dice.number(64);
        let below = self.dice.pick(&[1, 1, 2, 3, any, 64, 65]);
        let number = origin.saturating_sub(below);
        for _ in 0..self.dice.pick(&[1, 1, 2, 3, 8]) {
            let fetch = Verb::Fetch(who as u8, number);
            let Some(asked) = self.puts_out(late, fetch) else {
                return;
            };
            let answer = self.answered(late, &asked);
            let Some(answer) = answer.filter(|_| !self.dice.one_in(4)) else {
                continue;
            };
            self.plays(late, Verb::Hear(self.stage.brought(&answer)));
            if self.dice.one_in(3) {
                let host = self.dice.below(8) as usize;
                self.plays(host, Verb::Hear(self.stage.brought(&answer)));
                self.plays(late, Verb::Hear(self.stage.brought(&answer)));
            }
        }
    }

    /// The others hear kind 22, but for some; what one of them puts out.
    fn answered(&mut self, late: usize, asked: &PutOut) -> Option<PutOut> {
        let mut answer = None;
        for host in (0..8).filter(|&host| host != late) {
            if !self.dice.one_in(4) {
                let heard = self.puts_out(host, Verb::Hear(self.stage.brought(asked)));
                answer = heard.or(answer);
            }
        }
        answer
    }
}

/// First originals about the edges: the 64 numbers below are none, few, 64, or 64 at the end of the numbers.
const ORIGINS: [u16; 12] = [0, 1, 2, 63, 64, 65, 127, 128, 129, 1000, 65_534, 65_535];

impl Run {
    /// Another's source of the spare end with a first original, about an edge now and then. Where it is open that is at most its first.
    fn original(&mut self) -> (u8, u16) {
        let source = self.name(true).source;
        let (first, _) = self.stage.span(SPARE, source).unwrap_or((0, 0));
        let origin = self.stage.origin(SPARE, source).unwrap_or(first);
        if !self.dice.one_in(2) {
            return (source, origin);
        }
        let fitting: Vec<u16> = ORIGINS.into_iter().filter(|&n| n <= first).collect();
        let origin = self.dice.pick(&fitting);
        self.originates(source, origin);
        (source, origin)
    }

    /// A number so many below the first original: mostly a fetchable one.
    fn below(&mut self, origin: u16) -> u16 {
        let any = 1 + self.dice.number(64);
        let below =
            self.dice
                .weighted(&[(4, 1), (3, 2), (6, any), (3, 64), (1, 65), (1, 63), (1, 0)]);
        origin.saturating_sub(below)
    }

    /// Who was heard, with or without a report of the source, and how far they are: few distances, so that they tie.
    fn candidates(&mut self, source: u8) {
        let me = self.me();
        let now = self.spare_now();
        let distances = self
            .dice
            .pick(&[[40, 40, 40], [1, 40, 1000], [7, 7, 40], [39, 40, 41]]);
        for host in (0..8).filter(|&host| host != me) {
            if self.dice.one_in(2) {
                let distance = self.dice.pick(&distances);
                self.stage.set(SPARE, Field::Distance(host, distance));
            }
            if self.dice.one_in(5) {
                continue;
            }
            let any = self.dice.byte();
            let sources = match self.dice.below(4) {
                0 => any & !(1 << source),
                1 => 1 << source,
                _ => any | 1 << source,
            };
            let heard = Heard {
                stamp: self.dice.below(1000),
                at: now,
                sources,
            };
            self.stage.set(SPARE, Field::Heard(host, heard));
        }
    }

    /// What was done to fetch a number, where it is fetchable: some others were tried, and perhaps it came.
    fn attempted(&mut self, name: Spot, late: bool) {
        let kept = &self.stage.ends[SPARE].sources[usize::from(name.source)];
        if kept.attempt(name.number).is_none() {
            return;
        }
        let own = 1 << self.me();
        let some = self.dice.byte() & self.dice.byte() & !own;
        let tried = match late && some == 0 {
            true => !own,
            false => some,
        };
        let attempt = Attempt { tried, late };
        self.stage.set(SPARE, Field::Attempt(name.at(), attempt));
    }

    fn asks_attempt(&mut self, name: Spot) {
        let end = SPARE as u8;
        let asked = Asked::Attempt(name.at());
        self.stage.line(Does::Ask { end, asked });
    }
}

/// "Each call tries the one with the least distance, ties to the lower host, among those not yet tried for that number since joining": a
/// number is fetched again and again, and a host may stop reporting or come nearer in between.
pub fn fetches(run: &mut Run) {
    let (source, origin) = run.original();
    run.candidates(source);
    let number = run.below(origin);
    let name = Spot { source, number };
    let late = run.dice.one_in(8);
    if late || run.dice.one_in(2) {
        run.attempted(name, late);
    }
    if run.dice.one_in(4) {
        let name = run.perhaps_64_away(name);
        run.attempted(name, false);
    }
    for _ in 0..run.dice.pick(&[1, 2, 4, 8]) {
        let ticks = run.dice.below(2);
        let clock = run.after(ticks);
        let name = run.perhaps_64_away(name);
        run.does(clock, Verb::Fetch(name.source, name.number));
        if run.dice.one_in(4) {
            run.session_about(source);
        }
    }
    run.asks_attempt(name);
}

impl Run {
    /// A session message of another that reports the source, or reports it no longer.
    fn session_about(&mut self, source: u8) {
        let me = self.me();
        let sender = self.dice.host_but(&[me]);
        let last = self.name_near(SPARE, source).number;
        let mut reports = Vec::new();
        for reported in 0..8 {
            let last = match reported == source {
                true => last,
                false => self.dice.number(64),
            };
            if self.dice.one_in(3) {
                reports.push(Report {
                    source: reported,
                    last,
                });
            }
        }
        let clock = self.after(0);
        let stamp = self.dice.below(1000);
        self.hears(
            clock,
            super::messages::session(sender, stamp, reports, vec![]),
        );
    }
}

/// "Its requester hands it out as Late [...] if it has tried that sender for the number since joining, at most once since joining": kind 23
/// from hosts tried and not, of the number and of others, to oneself and to others, once and again.
pub fn late_cue(run: &mut Run) {
    let (source, origin) = run.original();
    let number = run.below(origin);
    let name = Spot { source, number };
    let late = run.dice.one_in(5);
    run.attempted(name, late);
    for _ in 0..run.dice.pick(&[1, 2, 3]) {
        let message = run.kind_23(name);
        let ticks = run.dice.below(2);
        let clock = run.after(ticks);
        run.hears(clock, message.clone());
        if run.dice.one_in(3) {
            run.hears(clock, message);
        }
    }
    run.asks_attempt(name);
    if run.dice.one_in(3) {
        let end = SPARE as u8;
        let asked = match run.dice.one_in(2) {
            true => Asked::Span(source),
            false => Asked::Origin(source),
        };
        run.stage.line(Does::Ask { end, asked });
    }
    if run.dice.one_in(3) {
        let clock = run.after(0);
        run.does(clock, Verb::Fetch(source, number));
    }
}

impl Run {
    /// Kind 23 of a name, mostly as it was asked for.
    fn kind_23(&mut self, name: Spot) -> Message {
        let me = self.me();
        let kept = &self.stage.ends[SPARE].sources[usize::from(name.source)];
        let tried = kept.attempts[usize::from(name.at().place)].tried;
        let likely: Vec<u8> = (0..8).filter(|&host| tried >> host & 1 == 1).collect();
        let sender = match likely.is_empty() || self.dice.one_in(4) {
            true => self.dice.host_but(&[me]),
            false => self.dice.pick(&likely),
        };
        let name = self.perhaps_64_away(name);
        let other = self.dice.host_but(&[sender, name.source]);
        let fits = sender != me && name.source != me;
        let requester = if fits && !self.dice.one_in(6) {
            me
        } else {
            other
        };
        let cue = self.good_cue();
        about(message::LATE, sender, 7, name, requester, cue)
    }
}

/// "The tried host answers with kind 23 in that call if it holds the cue.": held, beside a waiting reply, below reply-quiet, waited for, below
/// first, above last, an own cue, one handed out as Late, or another is the host tried.
pub fn kind_22(run: &mut Run) {
    let me = run.me();
    let mut name = run.name(false);
    match run.dice.below(8) {
        0 if name.source != me => run.waits(name, 1, 9, 3),
        1 => run.replies(name, 9),
        2 => {
            run.held(name);
            run.hush(name, 5);
        }
        3 => name = run.name_near(SPARE, name.source),
        4 => {
            let (source, origin) = run.original();
            let number = origin.saturating_sub(1);
            name = Spot { source, number };
            run.attempted(name, true);
        }
        5 => name.source = run.dice.small(8),
        _ => run.held(name),
    }
    let sender = run.dice.host_but(&[me, name.source]);
    let other = run.dice.host_but(&[sender]);
    let host = run.dice.pick(&[me, me, me, other]);
    let cue = run.good_cue();
    let ticks = run.dice.below(3);
    let clock = run.after(ticks);
    run.hears(clock, about(message::FTCH, sender, 7, name, host, cue));
}

/// "since joining": tries and Late marks, then a leave, and the same number fetched and heard again.
pub fn rejoined(run: &mut Run) {
    let (source, origin) = run.original();
    let number = origin.saturating_sub(1 + run.dice.number(3));
    let name = Spot { source, number };
    let late = run.dice.one_in(2);
    run.attempted(name, late);
    let clock = run.after(0);
    for event in [Verb::Leave, Verb::Left, Verb::Join, Verb::Joined] {
        run.does(clock, event);
        if run.dice.one_in(6) {
            run.does(clock, Verb::Fetch(source, number));
        }
    }
    if !run.dice.one_in(6) {
        let number = origin.saturating_add(run.dice.pick(&[0, 0, 1, 64]));
        run.hears_of(message::DATA, Spot { source, number }, 0);
    }
    run.candidates(source);
    for _ in 0..2 {
        if run.dice.one_in(2) {
            let message = run.kind_23(name);
            run.hears(clock, message);
        }
        run.does(clock, Verb::Fetch(source, number));
    }
    run.asks_attempt(name);
}
