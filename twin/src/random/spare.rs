//! The spare end, and copies of ends: what is set up on them, and events on them.

use super::events::ANY;
use super::messages::{about, composed};
use super::stage::{Spot, COPY, SPARE};
use super::Run;
use crate::end::{Attempt, Pair, Reply, Request, Status};
use crate::message::{self, Message};
use crate::trace::{At, Does, Field, Verb};
use crate::CLOCK_MAX;

impl Run {
    /// Any event on the spare end, some of its records stirred before.
    pub(super) fn on_spare(&mut self) {
        self.surround(true);
        self.refresh();
        for _ in 0..self.dice.below(3) {
            self.stir();
        }
        self.any_event(SPARE);
    }

    /// Any event on a copy of the spare end or of one of the eight, with one field changed.
    pub(super) fn on_changed(&mut self) {
        self.surround(false);
        let talking: Vec<usize> = (0..=SPARE)
            .filter(|&place| !self.stage.open_sources(place).is_empty())
            .collect();
        let from = match talking.is_empty() || self.dice.one_in(6) {
            true => self.dice.below(9) as usize,
            false => self.dice.pick(&talking),
        };
        self.stage.copy(COPY, from);
        self.changed_event(COPY);
    }

    /// Any event, after one field is changed.
    pub fn changed_event(&mut self, place: usize) {
        self.change(place);
        self.any_event(place);
    }

    pub fn any_event(&mut self, place: usize) {
        let kind = self.dice.weighted(&ANY);
        let own = self.stage.ends[place].clock;
        let clock = self.spare_clock(own);
        let (verb, _) = self.verb(kind, place, clock, 60);
        self.stage.act(place, clock, verb);
    }

    /// The reason of any event on any end, asked alone. It changes nothing, so an invented message may be brought to one of the eight too.
    pub(super) fn asking_why(&mut self) {
        let place = self.dice.below(10) as usize;
        let kind = self.dice.weighted(&ANY);
        let own = self.stage.ends[place].clock;
        let clock = self.spare_clock(own);
        let (verb, _) = self.verb(kind, place, clock, 60);
        let end = place as u8;
        self.stage.line(Does::Why { end, clock, verb });
    }

    fn spare_clock(&mut self, own: u64) -> u64 {
        let capped = CLOCK_MAX.min(own);
        let later = match self.dice.below(16) {
            0 => return self.bad_clock(own),
            1 => return CLOCK_MAX,
            2 => self.dice.below(1 << 32),
            3..=8 => return own,
            9..=13 => self.dice.below(4),
            _ => self.dice.below(5000),
        };
        CLOCK_MAX.min(capped + later)
    }

    /// Now and then, and where nothing can be played on it, the spare end becomes a copy of one of the eight.
    fn refresh(&mut self) {
        let spare = &self.stage.ends[SPARE];
        let stuck = !spare.sound() || spare.status == Status::Crashed;
        if stuck || self.dice.one_in(6) {
            let from = self.dice.below(8) as usize;
            self.stage.copy(SPARE, from);
        }
    }

    pub fn member_on_spare(&mut self) {
        self.refresh();
        if self.stage.ends[SPARE].status != Status::Member {
            let members: Vec<usize> = (0..8)
                .filter(|&place| self.stage.ends[place].status == Status::Member)
                .collect();
            if members.is_empty() {
                self.stage.set(SPARE, Field::Status(Status::Member));
            } else {
                let from = self.dice.pick(&members);
                self.stage.copy(SPARE, from);
            }
        }
        // A clock so late that nothing can come after it makes no scene.
        if CLOCK_MAX - self.stage.ends[SPARE].clock < 100 && self.dice.one_in(2) {
            self.stage.copy(SPARE, self.talker);
            self.stage.set(SPARE, Field::Status(Status::Member));
        }
    }

    pub fn me(&self) -> u8 {
        self.stage.ends[SPARE].host
    }

    pub fn spare_now(&self) -> u64 {
        self.stage.ends[SPARE].clock
    }

    /// A clock that is so many ticks after the spare end's.
    pub fn after(&self, ticks: u64) -> u64 {
        CLOCK_MAX.min(self.spare_now() + ticks)
    }

    pub fn hears(&mut self, clock: u64, message: Message) {
        self.does(clock, Verb::Hear(composed(message)));
    }

    pub fn does(&mut self, clock: u64, verb: Verb) {
        self.stage.act(SPARE, clock, verb);
    }

    /// A name inside an open span of the spare end. Where no fitting source is open, one is opened.
    pub fn name(&mut self, others: bool) -> Spot {
        let me = self.me();
        let fitting: Vec<u8> = self
            .stage
            .open_sources(SPARE)
            .into_iter()
            .filter(|&source| !(others && source == me))
            .collect();
        let source = match fitting.is_empty() || self.dice.one_in(10) {
            true => self.opened(others),
            false => self.dice.pick(&fitting),
        };
        let (first, last) = self.stage.span(SPARE, source).unwrap_or((0, 0));
        let number = first + self.dice.number(u64::from(last - first) + 1);
        Spot { source, number }
    }

    /// Some source of the spare end, which is opened where it is closed.
    pub fn opened(&mut self, others: bool) -> u8 {
        let me = self.me();
        let source = match others {
            true => self.dice.host_but(&[me]),
            false => self.dice.small(8),
        };
        if self.stage.span(SPARE, source).is_none() {
            self.open_at(source);
        }
        source
    }

    /// Opens a closed source of the spare end with up to four numbers, about the places where numbers come round and run out.
    pub fn open_at(&mut self, source: u8) {
        let me = self.me();
        let first: u16 = self.dice.pick(&[
            0, 1, 5, 30, 61, 62, 63, 64, 65, 126, 127, 128, 1000, 65_471, 65_472, 65_473, 65_533,
            65_535,
        ]);
        let last = first.saturating_add(self.dice.number(4));
        let span = Field::Span {
            source,
            first,
            last,
        };
        self.stage.set(SPARE, span);
        if source == me {
            self.stage.set(SPARE, Field::Next(u32::from(last) + 1));
        } else {
            let lower = first.saturating_sub(self.dice.pick(&[1, 2, 63, 64, 65]));
            let origin = self.dice.pick(&[first, first, first, lower]);
            self.originates(source, origin);
        }
        if self.dice.one_in(3) {
            let missed = self.dice.pick(&[0, 1, first / 2, first]).min(first);
            self.stage.set(SPARE, Field::Missed(source, missed.into()));
        }
        for number in first..=last {
            let name = Spot { source, number };
            if source != me && self.dice.one_in(3) {
                self.waits(name, 1, 5, 5);
            } else {
                self.held(name);
            }
        }
    }

    /// The first original's number of another's source, at most its first (document 02, P9). What was done to fetch others goes.
    pub fn originates(&mut self, source: u8, origin: u16) {
        self.stage.set(SPARE, Field::Origin(source, origin));
        for place in 0..64 {
            let kept = &self.stage.ends[SPARE].sources[usize::from(source)];
            if kept.attempts[usize::from(place)] != Attempt::NONE {
                let at = At { source, place };
                self.stage.set(SPARE, Field::Attempt(at, Attempt::NONE));
            }
        }
    }

    /// The cue of this name is held, with no reply.
    pub fn held(&mut self, name: Spot) {
        let name = name.at();
        if !self.stage.record(SPARE, name).cue.in_range() {
            let cue = self.good_cue();
            self.stage.set(SPARE, Field::Cue(name, cue));
        }
        if !self.stage.is_held(SPARE, name) {
            self.stage.set(SPARE, Field::Held(name));
        }
    }

    /// A request of this name waits, its due and quiet times so many ticks on.
    pub fn waits(&mut self, name: Spot, round: u8, due: u64, quiet: u64) {
        let now = self.spare_now();
        let request = Request {
            round,
            due: now + due,
            quiet_until: now + quiet,
            express: None,
        };
        self.stage.set(SPARE, Field::Waits(name.at(), request));
    }

    /// A request of this name waits with its express wait (document 02, P8), their times so many ticks on; a pair is kept.
    pub fn waits_express(&mut self, name: Spot, round: u8, due: u64, express: u64) {
        if self.stage.ends[SPARE].sources[usize::from(name.source)]
            .pair
            .is_none()
        {
            self.keeps_pair(name.source, name.number);
        }
        let now = self.spare_now();
        let request = Request {
            round,
            due: now + due,
            quiet_until: now,
            express: Some(now + express),
        };
        self.stage.set(SPARE, Field::Waits(name.at(), request));
    }

    /// A pair is kept for a source, mostly with oneself as requester.
    pub fn keeps_pair(&mut self, source: u8, number: u16) {
        let me = self.me();
        let other = self.dice.host_but(&[me]);
        let pair = Pair {
            requester: self.dice.pick(&[me, me, me, other]),
            sender: self.dice.host_but(&[me]),
            number,
        };
        self.stage.set(SPARE, Field::Pair(source, pair));
    }

    /// A reply for this name waits, its due time so many ticks on; the cue is held.
    pub fn replies(&mut self, name: Spot, due: u64) {
        self.held(name);
        let me = self.me();
        let requester = self.dice.host_but(&[me, name.source]);
        let due = self.spare_now() + due;
        self.stage
            .set(SPARE, Field::Reply(name.at(), Reply { due, requester }));
    }

    /// The reply-quiet time of this name is so many ticks on.
    pub fn hush(&mut self, name: Spot, ticks: u64) {
        let time = self.spare_now() + ticks;
        self.stage.set(SPARE, Field::Hush(name.at(), time));
    }

    /// One record of an open source changed so that the end stays sound, with a wait or a quiet time about its clock.
    fn stir(&mut self) {
        if self.stage.open_sources(SPARE).is_empty() {
            return;
        }
        let name = self.name(false);
        self.stir_at(name);
    }

    pub fn stir_at(&mut self, name: Spot) {
        let soon = self.dice.below(3);
        match self.dice.below(3) {
            0 => self.replies(name, soon),
            1 if name.source != self.me() && self.dice.one_in(3) => {
                let (round, due) = (1 + self.dice.small(16), self.dice.below(3));
                self.waits_express(name, round, due, soon);
            }
            1 if name.source != self.me() => {
                let (round, quiet) = (1 + self.dice.small(16), self.dice.below(3));
                self.waits(name, round, soon, quiet);
            }
            _ => self.hush(name, soon),
        }
    }

    /// A request of another host for this name, heard so many ticks on.
    pub fn hears_request(&mut self, name: Spot, ticks: u64) {
        let me = self.me();
        let sender = self.dice.host_but(&[me, name.source]);
        let cue = self.good_cue();
        let clock = self.after(ticks);
        let stamp = self.dice.below(1000);
        // Every other end "treats kind 21 as RQST from its sender" (document 02, P8).
        let message = match self.dice.one_in(4) {
            true => {
                let host = self.named_by(sender, SPARE);
                about(message::XPRS, sender, stamp, name, host, cue)
            }
            false => about(message::RQST, sender, stamp, name, sender, cue),
        };
        self.hears(clock, message);
    }
}
