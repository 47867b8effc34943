//! Calls of the reader, the writer and the cue test alone, and questions about a state.

use super::messages::{session, Reader};
use super::stage::{Surroundings, SPARE};
use super::Run;
use crate::message::{self, Echo, Message};
use crate::trace::{Asked, At, Composed, Does};
use crate::CLOCK_MAX;

impl Run {
    pub(super) fn codec(&mut self) {
        match self.dice.below(3) {
            0 => self.read(),
            1 => self.write(),
            _ => {
                let cue = self.cue();
                self.stage.line(Does::Test(cue));
            }
        }
    }

    fn read(&mut self) {
        let reader = self.any_reader();
        let bytes = match self.dice.below(20) {
            0 => {
                let length = self.dice.pick(&[0, 0, 1, 11, 12]);
                self.dice.bytes(length)
            }
            1..=8 => message::put_together(&self.defective(&reader)),
            9..=12 => self.old_kind(&reader),
            _ => {
                let (brought, _) = self.message(&reader);
                self.stage.bytes(&brought)
            }
        };
        self.stage.line(Does::Read(bytes));
    }

    fn any_reader(&mut self) -> Reader {
        Reader {
            place: SPARE,
            clock: self.stage.ends[SPARE].clock,
            invented: 70,
        }
    }

    /// Good, with a defect, with a stamp or held ticks at the limit, or with counts that are not those of the sections.
    fn write(&mut self) {
        self.surround(false);
        if self.dice.one_in(8) {
            let room = self.dice.pick(&[0, 127, 129, 200]);
            let around = self.stage.around.clone();
            self.stage.surround(Surroundings { room, ..around });
        }
        if self.dice.one_in(10) {
            let room = self.dice.pick(&[0, 127, 128, 128, 129]);
            let around = self.stage.around.clone();
            self.stage.surround(Surroundings { room, ..around });
            return self.stage.line(Does::WriteProbe);
        }
        let reader = self.any_reader();
        let mut message = match self.dice.one_in(2) {
            true => self.compose(&reader),
            false => self.defective(&reader),
        };
        if !fits(&message) {
            message = self.compose(&reader);
        }
        if self.dice.one_in(3) {
            message = self.at_limit(&reader);
        }
        if self.dice.one_in(12) && message.kind >= message::DATA {
            // The kinds 1 to 4 are "no longer written" (document 02, P7).
            message.kind -= 16;
        }
        let mut composed = Composed::of(message);
        if self.dice.one_in(6) {
            composed.counts = Some(self.counts(&composed.message));
        }
        self.stage.line(Does::Write(composed));
    }

    /// A stamp or held ticks at the limit, in an echo mostly.
    fn at_limit(&mut self, reader: &Reader) -> Message {
        let value = self.dice.pick(&[CLOCK_MAX, CLOCK_MAX + 1, u64::MAX]);
        let (sender, host) = self.dice.pick(&[(0, 7), (7, 3), (4, 0)]);
        let mut echo = Echo {
            host,
            stamp: 7,
            held: 7,
        };
        match self.dice.below(3) {
            0 => echo.stamp = value,
            1 => echo.held = value,
            _ => {
                let mut message = self.compose(reader);
                message.stamp = value;
                return message;
            }
        }
        session(sender, 7, vec![], vec![echo])
    }

    /// Counts of which one is another.
    fn counts(&mut self, message: &Message) -> [u64; 4] {
        let mut counts = [
            message.names.len() as u64,
            message.cues.len() as u64,
            message.reports.len() as u64,
            message.echoes.len() as u64,
        ];
        let which = self.dice.below(4) as usize;
        let count = counts[which];
        counts[which] = self.dice.pick(&[
            0,
            count.saturating_sub(1),
            count + 1,
            8,
            9,
            255,
            256,
            u64::MAX,
        ]);
        counts
    }

    /// What was done to fetch a number, mostly one that was tried.
    fn asking_attempt(&mut self, end: u8) {
        let tries = self.stage.attempted(usize::from(end));
        let at = match tries.is_empty() {
            true => At {
                source: self.dice.small(8),
                place: self.dice.small(64),
            },
            false => self.dice.pick(&tries).0.at(),
        };
        let asked = Asked::Attempt(at);
        self.stage.line(Does::Ask { end, asked });
    }

    /// A question about a state. It is no call.
    pub(super) fn asking(&mut self) {
        let end = self.dice.small(10);
        let source = self.dice.small(8);
        let at = At {
            source,
            place: self.dice.small(64),
        };
        let other = self.dice.small(10);
        let asked = match self.dice.below(22) {
            0 => return self.stage.line(Does::AskOutput),
            1 => Asked::Clock,
            2 => Asked::Next,
            3 => Asked::Status,
            4 => Asked::Host,
            5 => Asked::Params,
            6 => Asked::Distance(source),
            7 => Asked::Span(source),
            8 => Asked::Heard(source),
            9 => Asked::Same(other),
            10 | 11 => Asked::Missed(source),
            12 | 13 => Asked::Pair(source),
            14 | 15 => Asked::Origin(source),
            16..=19 => return self.asking_attempt(end),
            _ => Asked::Record(at),
        };
        self.stage.line(Does::Ask { end, asked });
    }
}

/// Whether a trace can compose it.
fn fits(m: &Message) -> bool {
    m.names.len() <= 2 && m.cues.len() <= 1 && m.reports.len() <= 8 && m.echoes.len() <= 7
}
