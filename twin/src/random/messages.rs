//! The messages that arrivals bring: earlier ones, earlier ones changed, composed ones, composed ones with one defect (defects.rs), and
//! garbage.

use super::stage::{PutOut, Spot};
use super::Run;
use crate::cue::Cue;
use crate::end::Body;
use crate::message::{self, Echo, Message, Name, Report};
use crate::trace::{Brought, Composed, Verb};
use crate::CLOCK_MAX;

/// A message about a name; the cue is left out where the kind has none.
pub fn about(kind: u8, sender: u8, stamp: u64, name: Spot, host: u8, cue: Cue) -> Message {
    let Spot { source, number } = name;
    Message {
        kind,
        sender,
        stamp,
        names: vec![Name {
            source,
            number,
            host,
        }],
        cues: match kind {
            message::RQST | message::XPRS | message::FTCH => vec![],
            _ => vec![cue],
        },
        reports: vec![],
        echoes: vec![],
    }
}

/// Kind 24 of its sender.
pub fn announcement(sender: u8, stamp: u64, trail: u16, lead: u16) -> Message {
    let names = [trail, lead].map(|number| Name {
        source: sender,
        number,
        host: sender,
    });
    Message {
        kind: message::ANNC,
        names: names.to_vec(),
        ..session(sender, stamp, vec![], vec![])
    }
}

pub fn session(sender: u8, stamp: u64, reports: Vec<Report>, echoes: Vec<Echo>) -> Message {
    Message {
        kind: message::SESS,
        sender,
        stamp,
        names: vec![],
        cues: vec![],
        reports,
        echoes,
    }
}

pub fn composed(message: Message) -> Brought {
    Brought::Composed(Composed::of(message))
}

/// Who hears a message, and when.
pub struct Reader {
    pub place: usize,
    pub clock: u64,
    /// Of 100 arrivals so many are invented.
    pub invented: u64,
}

impl Run {
    /// A message, and whether the network may bring it: one of the eight ends put it out, or it is a probe.
    pub fn message(&mut self, reader: &Reader) -> (Brought, bool) {
        // A probe "may come from anywhere" (document 02, P5).
        if self.dice.one_in(24) {
            return (Brought::Bytes(vec![]), true);
        }
        if self.dice.below(100) >= reader.invented {
            if let Some(earlier) = self.earlier(true) {
                return (self.stage.brought(&earlier), true);
            }
        }
        let brought = match self.dice.below(10) {
            0 => Brought::Bytes(self.garbage()),
            1 | 2 => match self.earlier(false) {
                Some(earlier) => return (self.stage.brought(&earlier), earlier.real),
                None => Brought::Bytes(self.garbage()),
            },
            3 => Brought::Bytes(self.changed()),
            4 => Brought::Bytes(message::put_together(&self.defective(reader))),
            5 => Brought::Bytes(self.old_kind(reader)),
            _ => composed(self.compose(reader)),
        };
        (brought, false)
    }

    /// An earlier message: every other time one of the latest, now and then any of the run.
    fn earlier(&mut self, real: bool) -> Option<PutOut> {
        let messages = &self.stage.messages;
        let back = self.dice.weighted(&[(24, 10), (23, 64), (1, usize::MAX)]);
        let latest = &messages[messages.len().saturating_sub(back)..];
        let fitting: Vec<&PutOut> = latest.iter().filter(|m| m.real || !real).collect();
        if fitting.is_empty() {
            return None;
        }
        Some(self.dice.pick(&fitting).clone())
    }

    /// "the old kinds are still read, numbers to 63" (document 02, P7): bytes of an old kind, good or with one defect; a number above 63
    /// now and then, and now and then the sizes of the other kinds.
    pub fn old_kind(&mut self, reader: &Reader) -> Vec<u8> {
        let mut message = match self.dice.one_in(6) {
            true => self.defective(reader),
            false => self.compose(reader),
        };
        let spoiled = self.dice.one_in(5);
        let high = self.dice.pick(&[64, 64, 65, 128, 255]);
        let fit = |number: u16, spoiled: bool| match (number <= 63, spoiled) {
            (_, true) => high,
            (true, false) => number,
            (false, false) => number % 64,
        };
        for name in &mut message.names {
            name.number = fit(name.number, spoiled);
        }
        let which = self.dice.below(message.reports.len().max(1) as u64) as usize;
        for (place, report) in message.reports.iter_mut().enumerate() {
            report.last = fit(report.last, spoiled && place == which);
        }
        let old = (message::DATA..=message::SESS).contains(&message.kind);
        message.kind -= if old { 16 } else { 0 };
        match self.dice.below(10) {
            0 => message::put_together(&message),
            1 => {
                message.kind = self
                    .dice
                    .pick(&[0, 5, 6, 7, 16, 17, 18, 19, 20, 21, 22, 23, 24, 255]);
                message::put_together_old(&message)
            }
            _ => message::put_together_old(&message),
        }
    }

    fn garbage(&mut self) -> Vec<u8> {
        let length = match self.dice.below(40) {
            0..=9 => self.dice.pick(&[0, 1, 11, 12, 13]),
            10..=37 => self.dice.below(28),
            38 => self.dice.below(256),
            _ => 256,
        };
        let mut bytes = self.dice.bytes(length as usize);
        // Every other time it begins as a message would, with counts of sections that may fit.
        if length >= 12 && self.dice.one_in(2) {
            bytes[0] = self.dice.pick(&[1, 17]) + self.dice.small(7);
            bytes[1] = self.dice.small(8);
            bytes[2..8].fill(0);
            bytes[8] = self.dice.small(2);
        }
        bytes
    }

    /// An earlier message with a byte or two changed, cut or added.
    fn changed(&mut self) -> Vec<u8> {
        let Some(earlier) = self.earlier(false) else {
            return self.garbage();
        };
        let mut bytes = earlier.bytes;
        self.change_bytes(&mut bytes);
        if self.dice.one_in(3) {
            self.change_bytes(&mut bytes);
        }
        bytes
    }

    fn change_bytes(&mut self, bytes: &mut Vec<u8>) {
        let dice = &mut self.dice;
        let at = dice.below(bytes.len().max(1) as u64) as usize;
        let (place, value) = match dice.below(12) {
            0 | 10 => return bytes.truncate(at),
            1 | 11 => return bytes.push(dice.pick(&[0, 1])),
            2 => (0, dice.pick(&[0, 16]) + dice.small(9)),
            3 => (1, dice.small(9)),
            4 => (9, dice.small(9)),
            5 => (10 + usize::from(dice.small(2)), dice.small(66)),
            6 => (12, dice.small(9)),
            7 => (at, bytes.get(at).unwrap_or(&0).wrapping_add(1)),
            8 => (2, 0),
            _ => (at, dice.byte()),
        };
        if let Some(byte) = bytes.get_mut(place) {
            *byte = value;
        }
    }

    /// A cue in range; its edges are met often, and most have no free bytes, so that lines stay short.
    pub fn good_cue(&mut self) -> Cue {
        let dice = &mut self.dice;
        let mut cue = Cue::ZERO;
        if dice.one_in(6) {
            cue.0[10..].copy_from_slice(&dice.bytes(14));
        }
        let fields = if dice.one_in(3) { 5 } else { 1 };
        for field in 0..fields {
            let edge = dice.one_in(4);
            let value = match (field, edge) {
                (4, true) => dice.pick(&[0, 1000]),
                (4, false) => dice.below(1001) as i16,
                (_, true) => dice.pick(&[-2000, -1, 0, 2000]),
                (_, false) => dice.below(4001) as i16 - 2000,
            };
            cue.0[2 * field..][..2].copy_from_slice(&value.to_be_bytes());
        }
        cue
    }

    /// The cue that a message brings of a name: where the end holds it the held one, or the held one with a byte changed, or seldom any.
    pub fn cue_of(&mut self, place: usize, name: Spot) -> Cue {
        let held = self
            .stage
            .kept(place, name)
            .filter(|record| record.body == Body::Held)
            .map(|record| record.cue);
        match held {
            Some(cue) if !self.dice.one_in(8) => match self.dice.below(5) {
                0..=2 => cue,
                _ => self.forged(cue),
            },
            _ => self.good_cue(),
        }
    }

    /// The cue with one byte changed: mostly a free one, the first and the last of them often; an offset or lamp stays in range.
    pub fn forged(&mut self, cue: Cue) -> Cue {
        let any = self.dice.below(24) as usize;
        let free = 10 + self.dice.below(14) as usize;
        let place = self.dice.pick(&[any, free, 10, 23, 23]);
        let mut forged = cue;
        forged.0[place] ^= self.dice.pick(&[1, 1, 128, 255]);
        if forged.in_range() {
            return forged;
        }
        forged = cue;
        forged.0[23] ^= 1;
        forged
    }

    /// Any cue, 1 in 12 with a field out of range.
    pub fn cue(&mut self) -> Cue {
        let mut cue = self.good_cue();
        if self.dice.one_in(12) {
            let field = self.dice.below(5) as usize;
            let value = self.bad_field(field);
            cue.0[2 * field..][..2].copy_from_slice(&value.to_be_bytes());
        }
        cue
    }

    /// A value of a cue's field at or past the edges of its range; the lamp is field 4.
    pub fn bad_field(&mut self, field: usize) -> u16 {
        if field == 4 {
            self.dice.pick(&[1001, 32768, 65535])
        } else {
            self.dice.pick(&[2001, 63535, 32767, 32768])
        }
    }

    /// A stamp: mostly not long before the clock.
    fn stamp(&mut self, clock: u64) -> u64 {
        match self.dice.below(10) {
            0 => self.dice.below(CLOCK_MAX + 1),
            1 => self.dice.pick(&[0, CLOCK_MAX]),
            _ => clock.saturating_sub(self.dice.below(20_000)),
        }
    }

    /// A name near the span of a source: below first, first, inside, last, above last; now and then about the edges of the window, which
    /// is "the latest 64 numbers" (document 02, P7), or a jump.
    pub fn name_near(&mut self, place: usize, source: u8) -> Spot {
        let span = self.stage.span(place, source).unwrap_or((0, 0));
        let (first, last) = (i32::from(span.0), i32::from(span.1));
        let inside = first + self.dice.below((last - first).max(0) as u64 + 1) as i32;
        let above = last + 2 + self.dice.below(3) as i32;
        let jump = last + i32::from(self.jump());
        let full = first + self.dice.pick(&[63, 63, 64, 64, 65]);
        let end = self.dice.pick(&[63, 64, 65_534, 65_535]);
        let number = self.dice.weighted(&[
            (12, first - 1),
            (8, first),
            (20, inside),
            (12, last),
            (12, last + 1),
            (8, above),
            (3, jump),
            (3, full),
            (1, last - 63),
            (1, last - 64),
            (1, end),
        ]);
        Spot {
            source,
            number: number.clamp(0, 65_535) as u16,
        }
    }

    /// How far last rises in a jump.
    pub fn jump(&mut self) -> u16 {
        self.dice.pick(&[
            1, 2, 10, 10, 62, 63, 63, 64, 64, 65, 65, 100, 127, 128, 1000, 65_000,
        ])
    }

    /// A message that the writer takes, of any kind, told to suit its reader.
    pub fn compose(&mut self, reader: &Reader) -> Message {
        let clock = CLOCK_MAX.min(reader.clock);
        let stamp = self.stamp(clock);
        let source = self.likely_source(reader.place);
        let name = self.name_near(reader.place, source);
        let cue = self.cue_of(reader.place, name);
        match self.dice.weighted(&[
            (3, message::DATA),
            (4, message::RQST),
            (4, message::REPL),
            (4, message::SESS),
            (3, message::XPRS),
            (3, message::FTCH),
            (3, message::LATE),
            (3, message::ANNC),
        ]) {
            message::DATA => about(message::DATA, source, stamp, name, source, cue),
            message::RQST => {
                let sender = self.dice.host_but(&[source]);
                about(message::RQST, sender, stamp, name, sender, cue)
            }
            message::XPRS => {
                let sender = self.dice.host_but(&[source]);
                let host = self.named_by(sender, reader.place);
                about(message::XPRS, sender, stamp, name, host, cue)
            }
            message::REPL => {
                let sender = self.dice.small(8);
                let requester = self.dice.host_but(&[sender, source]);
                about(message::REPL, sender, stamp, name, requester, cue)
            }
            message::FTCH => {
                let sender = self.dice.host_but(&[source]);
                let host = self.named_by(sender, reader.place);
                about(message::FTCH, sender, stamp, name, host, cue)
            }
            message::LATE => self.compose_late(reader.place, stamp),
            message::ANNC => self.compose_announce(source, stamp, name.number),
            _ => self.compose_session(reader.place, clock, stamp),
        }
    }

    /// Kind 24 (document 02, P11): a trail near the reader's span of its sender, and a lead "from trail to trail+63", at both ends often.
    pub fn compose_announce(&mut self, sender: u8, stamp: u64, near: u16) -> Message {
        let trail = match self.dice.below(10) {
            0 => self.dice.pick(&[0, 65_471, 65_472, 65_473, 65_534, 65_535]),
            _ => near,
        };
        let any = self.dice.number(64);
        let above = self.dice.pick(&[0, 1, any, any, 62, 63, 63]);
        announcement(sender, stamp, trail, trail.saturating_add(above))
    }

    /// Kind 23 (document 02, P9): mostly of a name that its reader has tried to fetch, from a host tried for it, to its reader; now and then
    /// of a number 64 away, from another or to another.
    fn compose_late(&mut self, place: usize, stamp: u64) -> Message {
        let me = self.stage.ends[place].host;
        let tries = self.stage.attempted(place);
        let (name, tried) = match tries.is_empty() || self.dice.one_in(4) {
            true => {
                let (source, number) = self.fetched_name(place);
                let source = source.min(7);
                (Spot { source, number }, self.dice.byte())
            }
            false => {
                let (name, attempt) = self.dice.pick(&tries);
                (name, attempt.tried)
            }
        };
        let name = self.perhaps_64_away(name);
        let source = name.source;
        let likely: Vec<u8> = (0..8).filter(|&host| tried >> host & 1 == 1).collect();
        let sender = match likely.is_empty() || self.dice.one_in(5) {
            true => self.dice.small(8),
            false => self.dice.pick(&likely),
        };
        let other = self.dice.host_but(&[sender, source]);
        let asked = me < 8 && me != sender && me != source && !self.dice.one_in(6);
        let requester = if asked { me } else { other };
        let cue = self.good_cue();
        about(message::LATE, sender, stamp, name, requester, cue)
    }

    /// The name, now and then one at the same place 64 below or above.
    pub fn perhaps_64_away(&mut self, name: Spot) -> Spot {
        let number = match self.dice.below(12) {
            0 => name.number.saturating_sub(64),
            1 => name.number.saturating_add(64),
            _ => name.number,
        };
        Spot { number, ..name }
    }

    /// A Fetch (document 02, P9): mostly of "the 64 numbers just below the first original", about their edges; now and then of a number that
    /// was tried, of the own source, of one that is not open, or of no host.
    pub fn fetch_of(&mut self, place: usize) -> Verb {
        let tries = self.stage.attempted(place);
        if !tries.is_empty() && self.dice.one_in(3) {
            let (name, _) = self.dice.pick(&tries);
            return Verb::Fetch(name.source, name.number);
        }
        let (source, number) = self.fetched_name(place);
        Verb::Fetch(source, number)
    }

    fn fetched_name(&mut self, place: usize) -> (u8, u16) {
        let source = match self.dice.below(24) {
            0 => self.dice.pick(&[8, 9, 255]),
            1 => self.dice.small(8),
            _ => self.likely_source(place),
        };
        let Some(origin) = self.stage.origin(place, source) else {
            let near = self.name_near(place, source.min(7)).number;
            return (source, near);
        };
        let any = 1 + self.dice.below(64) as i32;
        let below = self.dice.weighted(&[
            (8, 1),
            (4, 2),
            (2, 3),
            (6, any),
            (1, 63),
            (3, 64),
            (2, 65),
            (1, 66),
            (1, 128),
            (2, 0),
            (1, -1),
            (1, -64),
        ]);
        let number = (i32::from(origin) - below).clamp(0, 65_535) as u16;
        (source, number)
    }

    /// The host that kind 21 or 22 names: every other time its reader, else any; never its sender.
    pub fn named_by(&mut self, sender: u8, place: usize) -> u8 {
        let reader = self.stage.ends[place].host;
        match reader < 8 && reader != sender && self.dice.one_in(2) {
            true => reader,
            false => self.dice.host_but(&[sender]),
        }
    }

    fn compose_session(&mut self, place: usize, clock: u64, stamp: u64) -> Message {
        let sender = self.dice.small(8);
        let often = self.dice.pick(&[1, 2, 4]);
        let mut reports = Vec::new();
        let mut echoes = Vec::new();
        for host in 0..8 {
            if self.dice.one_in(often) {
                let last = self.name_near(place, host).number;
                reports.push(Report { source: host, last });
            }
            if self.dice.one_in(often) && host != sender {
                let (stamp, held) = self.echoed(clock);
                echoes.push(Echo { host, stamp, held });
            }
        }
        session(sender, stamp, reports, echoes)
    }

    /// Stamp and held ticks of an echo, about the edges of what an end makes of them.
    pub fn echoed(&mut self, clock: u64) -> (u64, u64) {
        let held = self.dice.weighted(&[(3, 0), (3, 25), (1, 3000)]);
        let late = held.min(clock);
        let ticks = match self.dice.below(8) {
            0 => self.dice.below(CLOCK_MAX + 1),
            1 | 2 => self.dice.below(20_000),
            3 => 8 * self.dice.below(1002) + self.dice.pick(&[0, 1, 7]),
            _ => self.dice.pick(&[
                0, 1, 7, 8, 9, 15, 16, 80, 81, 87, 88, 7_992, 7_993, 7_999, 8_000, 8_001, 8_007,
                8_008, 8_016, CLOCK_MAX,
            ]),
        };
        if self.dice.one_in(6) {
            // More held than has passed: e would be below 0.
            let stamp = clock - late;
            return (
                stamp,
                (held + self.dice.pick(&[1, 2, 8, 1000])).min(CLOCK_MAX),
            );
        }
        ((clock - late).saturating_sub(ticks), late)
    }

    /// A source that the end has open, mostly; the own one too.
    pub fn likely_source(&mut self, place: usize) -> u8 {
        let open = self.stage.open_sources(place);
        if open.is_empty() || self.dice.one_in(5) {
            self.dice.small(8)
        } else {
            self.dice.pick(&open)
        }
    }
}
