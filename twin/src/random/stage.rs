//! The ends of a trace, and its text so far. Each line that is written is also done, so that a run knows every state, answer and message.

use std::fmt::Write;

use crate::end::{place_of, Answer, Attempt, Body, End, Event, Params, Record};
use crate::message::{self, Datagram};
use crate::replay;
use crate::trace::{row_of_draws, At, Brought, Does, Field, Verb, BUFFER};
use crate::{Draw, DRAWS, OUTPUT_LEN};

/// The end that no book follows, and the one that is used for a few calls and dropped.
pub const SPARE: usize = 8;
pub const COPY: usize = 9;

/// So many of the latest messages can be named by their number.
const KEPT: u64 = 64;

/// A cue of a source, by its number.
#[derive(Clone, Copy, Debug, PartialEq, Eq)]
pub struct Spot {
    pub source: u8,
    pub number: u16,
}

impl Spot {
    /// Where its record stands while it is inside first..last.
    pub fn at(self) -> At {
        At {
            source: self.source,
            place: place_of(self.number) as u8,
        }
    }
}

/// What surrounds a call. The draws are a line of theirs.
#[derive(Clone, Debug, PartialEq, Eq)]
pub struct Surroundings {
    pub draws: Does,
    pub room: u8,
    pub fill: u8,
}

/// The draws that a line gives.
pub fn values(draws: &Does) -> Vec<Draw> {
    match draws {
        Does::Draws { count, first, step } => row_of_draws(*count, *first, *step),
        Does::Each(values) => values.clone(),
        _ => Vec::new(),
    }
}

/// A message that an event put out.
#[derive(Clone)]
pub struct PutOut {
    pub number: u64,
    pub bytes: Vec<u8>,
    /// Whether one of the eight put it out, so that the book knows it.
    pub real: bool,
}

impl PutOut {
    /// Whether it is one of the eight's and brings the cue of this name, as an original or a repair.
    pub fn brings(&self, name: Spot) -> bool {
        let message = message::read(&self.bytes).ok().and_then(Datagram::message);
        self.real
            && message.is_some_and(|m| {
                let named = m.names.first().map(|n| (n.source, n.number));
                matches!(m.kind, message::DATA | message::REPL)
                    && named == Some((name.source, name.number))
            })
    }
}

pub struct Stage {
    pub ends: Vec<End>,
    pub around: Surroundings,
    pub messages: Vec<PutOut>,
    /// The buffer after the last event.
    pub buffer: Vec<u8>,
    pub calls: u64,
    pub text: String,
}

impl Stage {
    /// The line `start`, under a heading.
    pub fn start(heading: &str) -> Stage {
        let mut ends: Vec<End> = (0..8)
            .map(|host| End::open(host, Params::STANDARD).1)
            .collect();
        ends.extend([ends[0].clone(), ends[0].clone()]);
        let draws = Does::Draws {
            count: DRAWS as u8,
            first: 0,
            step: 0,
        };
        Stage {
            ends,
            around: Surroundings {
                draws,
                room: OUTPUT_LEN as u8,
                fill: 165,
            },
            messages: Vec::new(),
            buffer: Vec::new(),
            calls: 0,
            text: format!("# {heading}\nstart\n"),
        }
    }

    /// A line that changes no end.
    pub fn line(&mut self, does: Does) {
        if matches!(
            does,
            Does::Read(_) | Does::Write(_) | Does::WriteProbe | Does::Test(_) | Does::Why { .. }
        ) {
            self.calls += 1;
        }
        let _ = writeln!(self.text, "{does}");
    }

    /// Writes down what surrounds the next call, as far as it is another.
    pub fn surround(&mut self, next: Surroundings) {
        if next.draws != self.around.draws {
            self.line(next.draws.clone());
        }
        if next.room != self.around.room {
            self.line(Does::Room(next.room));
        }
        if next.fill != self.around.fill {
            self.line(Does::Fill(next.fill));
        }
        self.around = next;
    }

    pub fn open(&mut self, place: usize, host: u8, params: Params) -> Option<u8> {
        let end = place as u8;
        self.line(Does::Open { end, host, params });
        self.calls += 1;
        let (refused, end) = End::open(host, params);
        self.ends[place] = end;
        refused
    }

    pub fn copy(&mut self, place: usize, from: usize) {
        let (end, other) = (place as u8, from as u8);
        self.line(Does::Copy { end, other });
        self.ends[place] = self.ends[from].clone();
    }

    pub fn set(&mut self, place: usize, field: Field) {
        replay::set(&mut self.ends[place], &field);
        let end = place as u8;
        self.line(Does::Set { end, field });
    }

    /// An event. What it puts out is kept under the next number.
    pub fn act(&mut self, place: usize, clock: u64, verb: Verb) -> Answer {
        let event = self.event(&verb);
        let end = place as u8;
        self.line(Does::Call { end, clock, verb });
        self.calls += 1;
        self.buffer = vec![self.around.fill; BUFFER.into()];
        let draws = values(&self.around.draws);
        let out = &mut self.buffer[..self.around.room.into()];
        let answer = self.ends[place].event(&event, clock, &draws, out);
        if let Answer::Out(length) = answer {
            self.messages.push(PutOut {
                number: self.messages.len() as u64,
                bytes: self.buffer[..length].to_vec(),
                real: place < SPARE,
            });
        }
        answer
    }

    /// Whether an event would be refused.
    pub fn refuses(&self, place: usize, clock: u64, verb: &Verb) -> bool {
        let mut buffer = [0; BUFFER as usize];
        let out = &mut buffer[..self.around.room.into()];
        let draws = values(&self.around.draws);
        let mut end = self.ends[place].clone();
        let answer = end.event(&self.event(verb), clock, &draws, out);
        matches!(answer, Answer::Refused(_))
    }

    pub fn event(&self, verb: &Verb) -> Event {
        match verb {
            Verb::Join => Event::Join,
            Verb::Joined => Event::Joined,
            Verb::Leave => Event::Leave,
            Verb::Left => Event::Left,
            Verb::Crash => Event::Crash,
            Verb::Fire => Event::Fire,
            Verb::Report => Event::Report,
            Verb::Announce => Event::Announce,
            Verb::Send(cue) => Event::Send(*cue),
            Verb::Fetch(source, number) => Event::Fetch {
                source: *source,
                number: *number,
            },
            Verb::Hear(brought) => Event::Arrival(self.bytes(brought)),
        }
    }

    pub fn bytes(&self, brought: &Brought) -> Vec<u8> {
        match brought {
            Brought::Number(number) => self.messages[*number as usize].bytes.clone(),
            Brought::Bytes(bytes) => bytes.clone(),
            Brought::Composed(composed) => {
                replay::written(&composed.to_message()).unwrap_or_default()
            }
        }
    }

    /// How `hear` brings this message: by its number while that is kept, else by its bytes.
    pub fn brought(&self, message: &PutOut) -> Brought {
        if message.number + KEPT >= self.messages.len() as u64 {
            Brought::Number(message.number)
        } else {
            Brought::Bytes(message.bytes.clone())
        }
    }

    pub fn record(&self, place: usize, at: At) -> &Record {
        &self.ends[place].sources[usize::from(at.source)].names[usize::from(at.place)]
    }

    /// What is kept of a name, where it is inside first..last.
    pub fn kept(&self, place: usize, name: Spot) -> Option<&Record> {
        self.ends[place].sources[usize::from(name.source)].kept(name.number)
    }

    /// Whether the cue at this place is held, with no reply.
    pub fn is_held(&self, place: usize, at: At) -> bool {
        let record = self.record(place, at);
        record.body == Body::Held && record.reply.is_none()
    }

    /// First and last of a source, where it is open.
    pub fn span(&self, place: usize, source: u8) -> Option<(u16, u16)> {
        let kept = &self.ends[place].sources[usize::from(source)];
        kept.first.zip(kept.last)
    }

    /// The number of the first original of a source, where there was one.
    pub fn origin(&self, place: usize, source: u8) -> Option<u16> {
        let kept = self.ends[place].sources.get(usize::from(source))?;
        kept.origin
    }

    /// The names that an end has tried to fetch, each with what was done.
    pub fn attempted(&self, place: usize) -> Vec<(Spot, Attempt)> {
        let sources = (0..8).zip(&self.ends[place].sources);
        sources
            .flat_map(|(source, kept)| {
                let numbers = (0..kept.origin.unwrap_or(0)).rev().take(64);
                numbers.filter_map(move |number| {
                    let attempt = *kept.attempt(number)?;
                    (attempt.tried != 0).then_some((Spot { source, number }, attempt))
                })
            })
            .collect()
    }

    pub fn open_sources(&self, place: usize) -> Vec<u8> {
        (0..8)
            .filter(|&source| self.span(place, source).is_some())
            .collect()
    }
}
