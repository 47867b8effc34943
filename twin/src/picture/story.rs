//! What a picture tells: the calls, the messages between them and the waits that
//! they set and end, as the twin's ends have them.

use std::collections::BTreeSet;

use crate::end::{Answer, Body, End, Event, Record, Status};
use crate::message::{self, Datagram, Message};

/// One step of an end, with its state before and after.
pub struct Step<'a> {
    pub end: usize,
    pub clock: u64,
    pub before: &'a End,
    pub after: &'a End,
    pub did: Did<'a>,
}

pub enum Did<'a> {
    Event {
        event: &'a Event,
        answer: Answer,
        out: &'a [u8],
        /// For an arrival of a message put out in this story: its number in it.
        heard: Option<usize>,
    },
    /// What is no event, in words.
    Change(String),
}

/// A call, or another change of an end's state.
pub struct Call {
    pub end: usize,
    pub host: u8,
    pub clock: u64,
    /// The end's status before the call, and after it.
    pub was: Status,
    pub status: Status,
    pub words: String,
    pub tone: Tone,
    /// A message from nowhere in the trace that arrives at this call.
    pub stranger: Option<Sent>,
}

/// How much a call's words stand out.
#[derive(Clone, Copy, Debug, PartialEq, Eq)]
pub enum Tone {
    Plain,
    HandedOut,
    Quiet,
    Refused,
}

/// What a message is drawn with.
#[derive(Clone, Debug, PartialEq, Eq)]
pub struct Sent {
    pub kind: u8,
    pub words: String,
}

/// A message that a call put out, and the calls that heard it.
pub struct Flight {
    pub sent: Sent,
    pub from: usize,
    pub heard: Vec<usize>,
}

/// What waits: a request in its round, or a reply.
#[derive(Clone, Copy, Debug, PartialEq, Eq)]
pub enum Awaited {
    Request { round: u8 },
    Reply,
}

/// A wait of an end for the numbers first..last of a source, from the call that set
/// it to the call that ended it, if one did.
pub struct Wait {
    pub end: usize,
    pub source: u8,
    pub first: u16,
    pub last: u16,
    pub what: Awaited,
    pub due: u64,
    pub from: usize,
    pub to: Option<usize>,
    pub fired: bool,
}

#[derive(Default)]
pub struct Story {
    /// What is written over it, or nothing.
    pub heading: String,
    pub calls: Vec<Call>,
    pub flights: Vec<Flight>,
    pub waits: Vec<Wait>,
}

impl Story {
    pub fn tell(&mut self, step: &Step) {
        let place = self.calls.len();
        self.follow_waits(step, place);
        let (words, tone) = words_of(step);
        self.calls.push(Call {
            end: step.end,
            host: step.after.host,
            clock: step.clock,
            was: step.before.status,
            status: step.after.status,
            words,
            tone,
            stranger: None,
        });
        if let Did::Event { event, heard, .. } = &step.did {
            self.follow_arrival(place, event, *heard);
        }
        if let Some(bytes) = put_out(step) {
            self.flights.push(Flight {
                sent: sent(bytes),
                from: place,
                heard: Vec::new(),
            });
        }
    }

    /// The message that a call hears comes from this story, or from outside.
    fn follow_arrival(&mut self, place: usize, event: &Event, heard: Option<usize>) {
        let Event::Arrival(bytes) = event else {
            return;
        };
        match heard.and_then(|number| self.flights.get_mut(number)) {
            Some(flight) => flight.heard.push(place),
            None => self.calls[place].stranger = Some(sent(bytes)),
        }
    }

    /// The ends that occur, each once, in their order.
    pub fn ends(&self) -> Vec<usize> {
        let mut ends: Vec<usize> = self.calls.iter().map(|call| call.end).collect();
        ends.sort_unstable();
        ends.dedup();
        ends
    }

    /// Ends the waits that are gone after the step and begins the new ones; at an end's
    /// first step of the story all are new.
    fn follow_waits(&mut self, step: &Step, place: usize) {
        let is_known = self.calls.iter().any(|call| call.end == step.end);
        for (source, (before, after)) in
            (0..).zip(step.before.sources.iter().zip(&step.after.sources))
        {
            for number in before
                .numbers()
                .chain(after.numbers())
                .collect::<BTreeSet<u16>>()
            {
                let old = before.kept(number).and_then(wait_of).filter(|_| is_known);
                let new = after.kept(number).and_then(wait_of);
                if old == new {
                    continue;
                }
                if old.is_some() {
                    self.end_wait(step, place, source, number);
                }
                if let Some((what, due)) = new {
                    self.waits.push(Wait {
                        end: step.end,
                        source,
                        first: number,
                        last: number,
                        what,
                        due,
                        from: place,
                        to: None,
                        fired: false,
                    });
                }
            }
        }
    }

    /// The wait of this name ends; it fired where the step put out its name.
    fn end_wait(&mut self, step: &Step, place: usize, source: u8, number: u16) {
        let fired = put_out(step)
            .and_then(|bytes| message::read(bytes).ok()?.message())
            .is_some_and(|message| name_in(&message) == Some((source, number)));
        let open = self.waits.iter_mut().rev().find(|wait| {
            wait.end == step.end
                && wait.source == source
                && wait.first == number
                && wait.to.is_none()
        });
        if let Some(wait) = open {
            wait.to = Some(place);
            wait.fired = fired;
        }
    }

    /// Neighbouring numbers whose waits were set and ended together, for the same time,
    /// are one wait of several numbers.
    pub fn join_waits(&mut self) {
        let mut joined: Vec<Wait> = Vec::new();
        for wait in self.waits.drain(..) {
            match joined.last_mut() {
                Some(last) if last.last + 1 == wait.first && last.is_as(&wait) => {
                    last.last = wait.last;
                }
                _ => joined.push(wait),
            }
        }
        self.waits = joined;
    }
}

impl Wait {
    fn is_as(&self, other: &Wait) -> bool {
        let key = |wait: &Wait| (wait.end, wait.source, wait.due, wait.from, wait.to);
        key(self) == key(other) && self.what == other.what && self.fired == other.fired
    }

    /// `0,1: round 2, due 1112`.
    pub fn words(&self) -> String {
        let Wait {
            source, first, due, ..
        } = self;
        let numbers = match self.last {
            last if last == *first => String::new(),
            last => format!("..{last}"),
        };
        match self.what {
            Awaited::Request { round } => {
                format!("{source},{first}{numbers}: round {round}, due {due}")
            }
            Awaited::Reply => format!("{source},{first}{numbers}: reply, due {due}"),
        }
    }
}

fn wait_of(record: &Record) -> Option<(Awaited, u64)> {
    match (record.body, record.reply) {
        (Body::Waiting(request), _) => {
            let round = request.round;
            Some((Awaited::Request { round }, request.due))
        }
        (_, Some(reply)) => Some((Awaited::Reply, reply.due)),
        _ => None,
    }
}

fn name_in(message: &Message) -> Option<(u8, u16)> {
    message.names.first().map(|name| (name.source, name.number))
}

/// A message's kind and name, or how many bytes it has where the reader refuses it.
fn sent(bytes: &[u8]) -> Sent {
    let message = match message::read(bytes) {
        Ok(Datagram::Message(message)) => message,
        Ok(Datagram::Probe) => {
            let words = "probe".to_string();
            return Sent { kind: 0, words };
        }
        Err(_) => {
            let words = match bytes.len() {
                1 => "1 byte".to_string(),
                length => format!("{length} bytes"),
            };
            return Sent { kind: 0, words };
        }
    };
    let kind = match message.kind {
        message::DATA => "DATA",
        message::RQST => "RQST",
        message::REPL => "REPL",
        message::XPRS => "XPRS",
        message::FTCH => "FTCH",
        message::LATE => "LATE",
        message::ANNC => "ANNC",
        _ => "SESS",
    };
    let words = match &message.names[..] {
        [trail, lead] => format!("{kind} {},{}..{}", trail.source, trail.number, lead.number),
        [name, ..] => format!("{kind} {},{}", name.source, name.number),
        [] => kind.to_string(),
    };
    Sent {
        kind: message.kind,
        words,
    }
}

/// The message that a step put out.
fn put_out<'a>(step: &Step<'a>) -> Option<&'a [u8]> {
    match step.did {
        Did::Event {
            answer: Answer::Out(length),
            out,
            ..
        } => Some(&out[..length]),
        _ => None,
    }
}

/// What is written beside a call. An arrow that leaves or arrives says the rest.
fn words_of(step: &Step) -> (String, Tone) {
    let (event, answer, out) = match &step.did {
        Did::Change(words) => return (words.clone(), Tone::Quiet),
        Did::Event {
            event, answer, out, ..
        } => (*event, *answer, *out),
    };
    let verb = verb_of(event);
    match answer {
        Answer::Got { source, number } => {
            let focus = signed(i16::from_be_bytes([out[0], out[1]]));
            let words = format!("got {source},{number} focus {focus}");
            (words, Tone::HandedOut)
        }
        Answer::Late { source, number } => {
            let focus = signed(i16::from_be_bytes([out[0], out[1]]));
            let words = format!("late {source},{number} focus {focus}");
            (words, Tone::HandedOut)
        }
        Answer::Exhausted => (spaced(&verb, "exhausted"), Tone::Quiet),
        Answer::Refused(number) => (spaced(&verb, &format!("refused {number}")), Tone::Refused),
        Answer::Clash { source, number } => (
            spaced(&verb, &format!("clash {source},{number}")),
            Tone::Plain,
        ),
        Answer::Ignored => (spaced(&verb, "ignored"), Tone::Quiet),
        Answer::Nothing => (spaced(&verb, "nothing"), Tone::Quiet),
        Answer::Done => (spaced(&verb, &measured(step)), Tone::Plain),
        Answer::Out(_) => (verb, Tone::Plain),
    }
}

/// An event in words; an arrival is an arrow and has none.
fn verb_of(event: &Event) -> String {
    let verb = match event {
        Event::Join => "join",
        Event::Joined => "joined",
        Event::Leave => "leave",
        Event::Left => "left",
        Event::Crash => "crash",
        Event::Send(cue) => return format!("send focus {}", signed(cue.focus())),
        Event::Fire => "fire",
        Event::Report => "report",
        Event::Announce => "announce",
        Event::Fetch { source, number } => return format!("fetch {source},{number}"),
        Event::Arrival(_) => "",
    };
    verb.to_string()
}

/// The distances that the call changed, apart from those that a leave or crash sets back.
fn measured(step: &Step) -> String {
    if step.before.status != step.after.status {
        return String::new();
    }
    let sources = step.before.sources.iter().zip(&step.after.sources);
    (0..)
        .zip(sources)
        .filter(|(_, (before, after))| before.distance != after.distance)
        .map(|(host, (_, after)): (u8, _)| format!("{} ms to {host}", after.distance))
        .collect::<Vec<String>>()
        .join(", ")
}

fn spaced(one: &str, two: &str) -> String {
    match (one, two) {
        ("", only) | (only, "") => only.to_string(),
        _ => format!("{one} {two}"),
    }
}

/// With the sign that is as wide as a digit.
fn signed(value: i16) -> String {
    value.to_string().replace('-', "\u{2212}")
}
