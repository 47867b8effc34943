//! Plays a trace on a bench of ten ends and prints what they answer: docs/TRACES.md.

use std::collections::VecDeque;
use std::fmt::Write as _;
use std::io::{self, Write};

use crate::branches::{self, take, Branch};
use crate::cue::{Cue, CUE_LEN};
use crate::digest::digest;
use crate::end::{Answer, Attempt, Body, End, Event, Params, Record, Status};
use crate::message::{self, Datagram, Message};
use crate::reason::Why;
use crate::text::Hex;
use crate::trace::{row_of_draws, BUFFER, ENDS, MOST_DRAWS};
use crate::trace::{Asked, At, Brought, Composed, Does, Field, InWords, Kind, Line, Row, Verb};
use crate::{Draw, DRAWS, HOSTS, OUTPUT_LEN, PLACES};

/// What is printed.
#[derive(Clone, Copy, Debug, PartialEq, Eq)]
pub enum Mode {
    /// A line for each call and each `ask`.
    Plain,
    /// The headings with how many rows under them were right, and the lines that were not.
    Rows,
    /// As plain, with the whole state after each call on an end.
    Words,
}

/// "the last 64 are kept".
const KEPT: usize = 64;

/// What the output is filled with at the start.
const FILL: u8 = 165;

/// Plays the trace to its end, or to a line that is bad.
pub fn play(trace: &[u8], mode: Mode, print: &mut impl Write) -> io::Result<()> {
    let mut player = Player::new(mode);
    let mut rest = trace;
    while !rest.is_empty() {
        player.lines += 1;
        let line = rest.split(|&byte| byte == b'\n').next().unwrap_or(rest);
        // A last line without its line feed is malformed.
        let played = match rest.get(line.len() + 1..) {
            Some(after) => {
                rest = after;
                player.line(line, print)?
            }
            None => None,
        };
        if played.is_none() {
            return writeln!(print, "{} bad", player.lines);
        }
    }
    player.finish(print)
}

/// A run: the bench and what is counted.
struct Player<'a> {
    mode: Mode,
    bench: Bench,
    lines: u64,
    calls: u64,
    right: u64,
    wrong: u64,
    /// The heading that the rows stand under, and how many were right before it.
    heading: Option<(&'a [u8], u64)>,
}

/// What a line did.
enum Outcome {
    /// It has no answer.
    Quiet,
    Shown(u8),
    Asked(Said),
    /// A call that leaves no end.
    Alone(Said),
    Opened(u8, Said),
    /// An event, with the reason that was asked before it.
    Event(u8, Said, Why),
}

/// An answer, and ` CHANGED` or ` OTHER BYTES` where a call did what no call may.
struct Said {
    answer: String,
    fault: &'static str,
}

impl From<String> for Said {
    fn from(answer: String) -> Said {
        Said { answer, fault: "" }
    }
}

impl<'a> Player<'a> {
    fn new(mode: Mode) -> Player<'a> {
        Player {
            mode,
            bench: Bench::start(),
            lines: 0,
            calls: 0,
            right: 0,
            wrong: 0,
            heading: None,
        }
    }

    /// Plays one line; none where it is bad.
    fn line(&mut self, line: &'a [u8], print: &mut impl Write) -> io::Result<Option<()>> {
        match Line::parse(line) {
            None => Ok(None),
            Some(Line::Blank) => Ok(Some(())),
            Some(Line::Heading(_)) => {
                self.close_heading(print)?;
                self.heading = Some((line, self.right));
                Ok(Some(()))
            }
            Some(Line::Row(row)) => match self.bench.play(&row.does) {
                None => Ok(None),
                Some(outcome) => self.row(&row, outcome, print).map(Some),
            },
        }
    }

    fn row(&mut self, row: &Row, outcome: Outcome, print: &mut impl Write) -> io::Result<()> {
        let (end, said, why) = match outcome {
            Outcome::Quiet => return Ok(()),
            Outcome::Shown(_) if self.mode == Mode::Rows => return Ok(()),
            Outcome::Shown(end) => return self.show(end, print),
            Outcome::Asked(said) => (None, said, None),
            Outcome::Alone(said) => {
                self.calls += 1;
                (None, said, None)
            }
            Outcome::Opened(end, said) => {
                self.calls += 1;
                (Some(end), said, None)
            }
            Outcome::Event(end, said, why) => {
                self.calls += 1;
                (Some(end), said, Some(why))
            }
        };
        let right = self.judge(row.expected.as_deref(), &said);
        if right && self.mode == Mode::Rows {
            return Ok(());
        }
        write!(print, "{} {}{}", self.lines, said.answer, said.fault)?;
        if let Some(end) = end {
            let output = Hex(self.bench.output());
            let digest = digest(self.bench.end(end));
            write!(print, "; {output}; {digest:016X}")?;
        }
        if let Some(why) = why {
            write!(print, "; {why}")?;
        }
        writeln!(print, "{}", if right { "" } else { " WRONG" })?;
        match end {
            Some(end) if self.mode == Mode::Words => self.show(end, print),
            _ => Ok(()),
        }
    }

    /// "the line's answer has to be these words, or begin with them and a space"; a line
    /// without an expectation is not wrong.
    fn judge(&mut self, expected: Option<&str>, said: &Said) -> bool {
        let Some(expected) = expected else {
            return true;
        };
        let met = said.fault.is_empty()
            && said
                .answer
                .strip_prefix(expected)
                .is_some_and(|rest| rest.is_empty() || rest.starts_with(' '));
        if met {
            self.right += 1;
        } else {
            self.wrong += 1;
        }
        met
    }

    fn show(&self, end: u8, print: &mut impl Write) -> io::Result<()> {
        print.write_all(in_words(self.bench.end(end)).as_bytes())
    }

    /// `HEADING: N right`, where the heading's rows are over.
    fn close_heading(&self, print: &mut impl Write) -> io::Result<()> {
        let Some((line, before)) = self.heading.filter(|_| self.mode == Mode::Rows) else {
            return Ok(());
        };
        let heading = line.strip_prefix(b"#").unwrap_or(line);
        print.write_all(heading.strip_prefix(b" ").unwrap_or(heading))?;
        writeln!(print, ": {} right", self.right - before)
    }

    fn finish(&self, print: &mut impl Write) -> io::Result<()> {
        self.close_heading(print)?;
        let Player {
            lines,
            calls,
            right,
            wrong,
            ..
        } = self;
        writeln!(
            print,
            "{lines} lines, {calls} calls, {right} right, {wrong} wrong"
        )
    }
}

/// The ends, and what surrounds a call.
struct Bench {
    ends: Vec<End>,
    draws: [Draw; MOST_DRAWS as usize],
    draw_count: usize,
    buffer: [u8; BUFFER as usize],
    room: usize,
    fill: u8,
    /// So many bytes of the output the last call's answer accounts for.
    accounted: usize,
    messages: VecDeque<Vec<u8>>,
    /// So many messages were put out.
    put_out: u64,
}

impl Bench {
    /// "end h is host h's, freshly opened with 9,8,4,4,4,8, for h = 0..7; ends 8 and 9 are
    /// copies of end 0; 64 draws of 0, an output of 128 bytes filled with 165; no message
    /// was put out".
    fn start() -> Bench {
        let host = |place: u8| if place < HOSTS { place } else { 0 };
        let open = |place: u8| End::open(host(place), Params::STANDARD).1;
        Bench {
            ends: (0..ENDS).map(open).collect(),
            draws: [0; MOST_DRAWS as usize],
            draw_count: DRAWS,
            buffer: [FILL; BUFFER as usize],
            room: OUTPUT_LEN,
            fill: FILL,
            accounted: 0,
            messages: VecDeque::new(),
            put_out: 0,
        }
    }

    fn end(&self, place: u8) -> &End {
        &self.ends[usize::from(place)]
    }

    fn end_mut(&mut self, place: u8) -> &mut End {
        &mut self.ends[usize::from(place)]
    }

    /// The output's bytes that the last answer accounts for.
    fn output(&self) -> &[u8] {
        &self.buffer[..self.accounted]
    }

    /// Does what a line says; none where it names an unknown message.
    fn play(&mut self, does: &Does) -> Option<Outcome> {
        match does {
            Does::Open { end, host, params } => {
                let said = self.open(*end, *host, *params);
                return Some(Outcome::Opened(*end, said));
            }
            Does::Call { end, clock, verb } => {
                let event = self.event_of(verb)?;
                let why = self.end(*end).why(&event, *clock);
                let said = self.call(*end, *clock, &event);
                return Some(Outcome::Event(*end, said, why));
            }
            Does::Why { end, clock, verb } => {
                let event = self.event_of(verb)?;
                self.refill();
                let why = self.end(*end).why(&event, *clock);
                return Some(Outcome::Alone(why.to_string().into()));
            }
            Does::Read(bytes) => return Some(Outcome::Alone(self.read(bytes))),
            Does::Write(composed) => return Some(Outcome::Alone(self.write(composed))),
            Does::WriteProbe => return Some(Outcome::Alone(self.write_probe())),
            Does::Test(cue) => return Some(Outcome::Alone(self.test(cue))),
            Does::Ask { end, asked } => return Some(Outcome::Asked(self.ask(*end, asked).into())),
            Does::AskOutput => return Some(Outcome::Asked(Hex(self.output()).to_string().into())),
            Does::Show { end } => return Some(Outcome::Shown(*end)),
            Does::Start => *self = Bench::start(),
            Does::Draws { count, first, step } => {
                self.take_draws(&row_of_draws(*count, *first, *step));
            }
            Does::Draw { place, value } => self.draws[usize::from(*place)] = *value,
            Does::Each(values) => self.take_draws(values),
            Does::Room(bytes) => self.room = usize::from(*bytes),
            Does::Fill(byte) => self.fill = *byte,
            Does::Copy { end, other } => *self.end_mut(*end) = self.end(*other).clone(),
            Does::Set { end, field } => set(self.end_mut(*end), field),
        }
        Some(Outcome::Quiet)
    }

    fn take_draws(&mut self, draws: &[Draw]) {
        self.draw_count = draws.len();
        self.draws[..draws.len()].copy_from_slice(draws);
    }

    fn event_of(&self, verb: &Verb) -> Option<Event> {
        Some(match verb {
            Verb::Join => Event::Join,
            Verb::Joined => Event::Joined,
            Verb::Leave => Event::Leave,
            Verb::Left => Event::Left,
            Verb::Crash => Event::Crash,
            Verb::Fire => Event::Fire,
            Verb::Report => Event::Report,
            Verb::Announce => Event::Announce,
            Verb::Send(cue) => Event::Send(*cue),
            Verb::Fetch(source, number) => Event::Fetch {
                source: *source,
                number: *number,
            },
            Verb::Hear(Brought::Number(number)) => Event::Arrival(self.message(*number)?.clone()),
            Verb::Hear(Brought::Bytes(bytes)) => Event::Arrival(bytes.clone()),
            Verb::Hear(Brought::Composed(composed)) => {
                Event::Arrival(written(&composed.to_message()).unwrap_or_default())
            }
        })
    }

    /// A message that was put out, by its number.
    fn message(&self, number: u64) -> Option<&Vec<u8>> {
        let ago = self.put_out.checked_sub(number)?;
        let place = self
            .messages
            .len()
            .checked_sub(usize::try_from(ago).ok()?)?;
        self.messages.get(place)
    }

    fn keep(&mut self, message: Vec<u8>) {
        self.messages.push_back(message);
        self.put_out += 1;
        if self.messages.len() > KEPT {
            self.messages.pop_front();
        }
    }

    /// "the whole buffer is filled with this byte before each call".
    fn refill(&mut self) {
        self.buffer.fill(self.fill);
        self.accounted = 0;
    }

    /// Is every byte past what the answer accounts for the fill?
    fn rest_untouched(&self) -> bool {
        let rest = &self.buffer[self.accounted..];
        rest.iter().all(|&byte| byte == self.fill)
    }

    fn open(&mut self, place: u8, host: u8, params: Params) -> Said {
        self.refill();
        let (refused, end) = End::open(host, params);
        *self.end_mut(place) = end;
        let answer = match refused {
            Some(number) => {
                branches::take_refusal(Branch::Refused1, 1, number);
                refusal(number)
            }
            None => {
                take(Branch::Opened);
                "opened".to_string()
            }
        };
        answer.into()
    }

    fn call(&mut self, place: u8, clock: u64, event: &Event) -> Said {
        let before = self.end(place).clone();
        self.refill();
        let draws = &self.draws[..self.draw_count];
        let out = &mut self.buffer[..self.room];
        let end = &mut self.ends[usize::from(place)];
        let answer = end.event(event, clock, draws, out);
        branches::take_answer(answer, out);
        self.accounted = match answer {
            Answer::Out(length) => length,
            Answer::Got { .. } | Answer::Late { .. } => CUE_LEN,
            _ => 0,
        };
        let keeps = match answer {
            Answer::Refused(_) => true,
            Answer::Ignored => before.status == Status::Crashed,
            _ => false,
        };
        let kept = !keeps || *self.end(place) == before;
        if let Answer::Out(_) = answer {
            self.keep(self.output().to_vec());
        }
        Said {
            answer: self.words(answer),
            fault: changed(!kept || !self.rest_untouched()),
        }
    }

    /// An event's answer in words.
    fn words(&self, answer: Answer) -> String {
        match answer {
            Answer::Refused(number) => refusal(number),
            Answer::Out(length) => {
                format!("out {length} {}", self.message_words())
            }
            Answer::Got { source, number } => format!("got {source} {number}"),
            Answer::Clash { source, number } => format!("clash {source} {number}"),
            Answer::Late { source, number } => format!("late {source} {number}"),
            Answer::Exhausted => "exhausted".to_string(),
            Answer::Done => "done".to_string(),
            Answer::Ignored => "ignored".to_string(),
            Answer::Nothing => "nothing".to_string(),
        }
    }

    /// The kind of the message in the buffer, and what it is about: source and number; of a SESS how many reports and echoes;
    /// of kind 24 source, trail and lead.
    fn message_words(&self) -> String {
        let kind = self.buffer[0];
        let number = |at: usize| u16::from_be_bytes([self.buffer[at], self.buffer[at + 1]]);
        let about = match kind {
            message::SESS => {
                let reports = self.buffer[10];
                let echoes = self.buffer[11 + 3 * usize::from(reports)];
                format!("{reports} {echoes}")
            }
            message::ANNC => format!("{} {} {}", self.buffer[9], number(10), number(14)),
            _ => format!("{} {}", self.buffer[9], number(10)),
        };
        format!("{} {about}", Kind(kind))
    }

    fn read(&mut self, bytes: &[u8]) -> Said {
        self.refill();
        let (answer, fault) = match message::read(bytes) {
            Ok(Datagram::Probe) => {
                take(Branch::ReaderProbe);
                ("probe".to_string(), "")
            }
            Ok(Datagram::Message(message)) => {
                take(Branch::Accepted);
                let fault = if reads_back(&message, bytes) {
                    ""
                } else {
                    " OTHER BYTES"
                };
                (format!("accepted {}", InWords(&message)), fault)
            }
            Err(number) => {
                branches::take_refusal(Branch::Reader8, 8, number);
                (refusal(number), "")
            }
        };
        Said { answer, fault }
    }

    fn write_probe(&mut self) -> Said {
        self.refill();
        let answer = match message::write_probe(&mut self.buffer[..self.room]) {
            Ok(length) => {
                take(Branch::WriterProbe);
                self.accounted = length;
                format!("written {length} {}", Hex(self.output()))
            }
            Err(number) => {
                take(Branch::WriterProbe1);
                refusal(number)
            }
        };
        Said {
            answer,
            fault: changed(!self.rest_untouched()),
        }
    }

    fn write(&mut self, composed: &Composed) -> Said {
        self.refill();
        let out = &mut self.buffer[..self.room];
        let answer = match message::write(&composed.to_message(), out) {
            Ok(length) => {
                take(Branch::Written);
                self.accounted = length;
                format!("written {length} {}", Hex(self.output()))
            }
            Err(1) => {
                take(Branch::Writer1);
                refusal(1)
            }
            Err(number) => {
                branches::take_refusal(Branch::Writer9, 9, number);
                refusal(number)
            }
        };
        Said {
            answer,
            fault: changed(!self.rest_untouched()),
        }
    }

    fn test(&mut self, cue: &Cue) -> Said {
        self.refill();
        let (branch, answer) = if cue.in_range() {
            (Branch::InRange, "in range")
        } else {
            (Branch::OutOfRange, "out of range")
        };
        take(branch);
        answer.to_string().into()
    }

    fn ask(&self, place: u8, asked: &Asked) -> String {
        let end = self.end(place);
        let source = |source: &u8| &end.sources[usize::from(*source)];
        match asked {
            Asked::Clock => end.clock.to_string(),
            Asked::Next => end.next.to_string(),
            Asked::Status => end.status.to_string(),
            Asked::Host => end.host.to_string(),
            Asked::Params => end.params.to_string(),
            Asked::Distance(of) => source(of).distance.to_string(),
            Asked::Span(of) => match (source(of).first, source(of).last) {
                (Some(first), Some(last)) => format!("{first} {last}"),
                _ => "closed".to_string(),
            },
            Asked::Missed(of) => source(of).missed.to_string(),
            Asked::Pair(of) => match source(of).pair {
                Some(pair) => pair.to_string(),
                None => "none".to_string(),
            },
            Asked::Heard(of) => match source(of).heard {
                Some(heard) => heard.to_string(),
                None => "unheard".to_string(),
            },
            Asked::Origin(of) => match source(of).origin {
                Some(number) => number.to_string(),
                None => "none".to_string(),
            },
            Asked::Attempt(at) => {
                let attempts = &source(&at.source).attempts;
                attempts[usize::from(at.place)].to_string()
            }
            Asked::Record(at) => record_words(record(end, at)),
            Asked::Same(other) => {
                let same = end == self.end(*other);
                if same { "same" } else { "different" }.to_string()
            }
        }
    }
}

fn refusal(number: u8) -> String {
    format!("refused {number}")
}

fn changed(yes: bool) -> &'static str {
    if yes {
        " CHANGED"
    } else {
        ""
    }
}

/// A message by the writer, into a buffer that is no end's output.
pub(crate) fn written(message: &Message) -> Option<Vec<u8>> {
    let mut buffer = [0; BUFFER as usize];
    let length = message::write(message, &mut buffer).ok()?;
    Some(buffer[..length].to_vec())
}

/// Document 02, P7: "reading back is exact for the new kinds"; of an old kind's message the writer
/// gives bytes that are read and written again as the same ones.
fn reads_back(message: &Message, bytes: &[u8]) -> bool {
    let Some(again) = written(message) else {
        return false;
    };
    if !message::is_old(bytes[0]) {
        return again == bytes;
    }
    let read = branches::uncounted(|| message::read(&again));
    let message = read.ok().and_then(Datagram::message);
    message.and_then(|message| written(&message)) == Some(again)
}

fn record<'a>(end: &'a End, at: &At) -> &'a Record {
    &end.sources[usize::from(at.source)].names[usize::from(at.place)]
}

fn record_mut<'a>(end: &'a mut End, at: &At) -> &'a mut Record {
    &mut end.sources[usize::from(at.source)].names[usize::from(at.place)]
}

/// Sets a field. A reply stands only beside a held cue.
pub(crate) fn set(end: &mut End, field: &Field) {
    match field {
        Field::Host(host) => end.host = *host,
        Field::Clock(clock) => end.clock = *clock,
        Field::Next(next) => end.next = *next,
        Field::Params(params) => end.params = *params,
        Field::Status(status) => end.status = *status,
        Field::Span {
            source,
            first,
            last,
        } => {
            let kept = &mut end.sources[usize::from(*source)];
            (kept.first, kept.last) = (Some(*first), Some(*last));
        }
        Field::Closed(source) => {
            let kept = &mut end.sources[usize::from(*source)];
            (kept.first, kept.last) = (None, None);
        }
        Field::Missed(source, missed) => end.sources[usize::from(*source)].missed = *missed,
        Field::Pair(source, pair) => end.sources[usize::from(*source)].pair = Some(*pair),
        Field::NoPair(source) => end.sources[usize::from(*source)].pair = None,
        Field::Distance(source, distance) => {
            end.sources[usize::from(*source)].distance = *distance;
        }
        Field::Heard(source, heard) => end.sources[usize::from(*source)].heard = Some(*heard),
        Field::Unheard(source) => end.sources[usize::from(*source)].heard = None,
        Field::Origin(source, number) => end.sources[usize::from(*source)].origin = Some(*number),
        Field::NoOrigin(source) => end.sources[usize::from(*source)].origin = None,
        Field::Attempt(at, attempt) => {
            end.sources[usize::from(at.source)].attempts[usize::from(at.place)] = *attempt;
        }
        Field::Empty(at) => {
            let record = record_mut(end, at);
            (record.body, record.reply) = (Body::Nothing, None);
        }
        Field::Held(at) => {
            let record = record_mut(end, at);
            (record.body, record.reply) = (Body::Held, None);
        }
        Field::Waits(at, request) => {
            let record = record_mut(end, at);
            (record.body, record.reply) = (Body::Waiting(*request), None);
        }
        Field::Reply(at, reply) => {
            let record = record_mut(end, at);
            (record.body, record.reply) = (Body::Held, Some(*reply));
        }
        Field::Cue(at, cue) => record_mut(end, at).cue = *cue,
        Field::Hush(at, time) => record_mut(end, at).reply_quiet = *time,
    }
}

/// What `ask record` answers.
fn record_words(record: &Record) -> String {
    let body = match (record.body, record.reply) {
        (Body::Waiting(request), _) => format!("waits {request}"),
        (Body::Held, Some(reply)) => format!("held reply {} {}", reply.due, reply.requester),
        (Body::Held, None) => "held".to_string(),
        (Body::Nothing, _) => "empty".to_string(),
    };
    format!(
        "{body} hush {} cue {}",
        record.reply_quiet,
        Hex(&record.cue.0)
    )
}

/// The whole state in words, "each line after two spaces".
pub fn in_words(end: &End) -> String {
    let mut words = format!(
        "  host {}\n  params {}\n  clock {}\n  status {}\n  next {}\n",
        end.host, end.params, end.clock, end.status, end.next
    );
    let mut line = |said: String| {
        let _ = writeln!(words, "  {said}");
    };
    for (place, source) in (0..HOSTS).zip(&end.sources) {
        let span = match (source.first, source.last) {
            (Some(first), Some(last)) => format!("span {first} {last}"),
            _ => "closed".to_string(),
        };
        let heard = match source.heard {
            Some(heard) => format!("heard {heard}"),
            None => "unheard".to_string(),
        };
        let origin = match source.origin {
            Some(number) => format!("origin {number}"),
            None => "noorigin".to_string(),
        };
        let pair = match source.pair {
            Some(pair) => format!("pair {pair}"),
            None => "nopair".to_string(),
        };
        let (missed, distance) = (source.missed, source.distance);
        line(format!(
            "source {place} {span} missed {missed} {pair} distance {distance} {heard} {origin}"
        ));
        for (at, record) in (0..PLACES).zip(&source.names) {
            if *record != Record::EMPTY {
                line(format!("record {place} {at} {}", record_words(record)));
            }
        }
        for (at, attempt) in (0..PLACES).zip(&source.attempts) {
            if *attempt != Attempt::NONE {
                line(format!("attempt {place} {at} {attempt}"));
            }
        }
    }
    words
}
