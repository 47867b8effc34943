//! The lines of a trace as values, parsed and printed back: docs/TRACES.md.

use std::fmt;

use crate::cue::{Cue, CUE_LEN};
use crate::end::{Attempt, Heard, Pair, Params, Reply, Request, Status};
use crate::message::{self, Echo, Message, Name, Report};
use crate::text::{decimal, hexadecimal, signed, Hex};
use crate::{Draw, HOSTS, PLACES};

/// "END is a place 0..9."
pub const ENDS: u8 = 10;

/// "there are COUNT draws, 0..66".
pub const MOST_DRAWS: u8 = 66;

/// "It is the front of a buffer of 200 bytes".
pub const BUFFER: u8 = 200;

/// "A line has at most 1,000 bytes", its line feed not counted.
pub const LINE: usize = 1000;

/// "`bytes` and at most 256 bytes".
pub const MESSAGE: usize = 256;

/// One line of a trace.
#[derive(Clone, Debug, PartialEq, Eq)]
pub enum Line {
    /// An empty line, or one with nothing but a remark.
    Blank,
    /// A line that starts with `#`: what follows that.
    Heading(String),
    Row(Row),
}

/// A line that does something.
#[derive(Clone, Debug, PartialEq, Eq)]
pub struct Row {
    pub does: Does,
    /// What stands after ` = `.
    pub expected: Option<String>,
    /// What stands after ` | `.
    pub remark: Option<String>,
}

#[derive(Clone, Debug, PartialEq, Eq)]
pub enum Does {
    Start,
    Draws { count: u8, first: Draw, step: Draw },
    Draw { place: u8, value: Draw },
    Each(Vec<Draw>),
    Room(u8),
    Fill(u8),
    Open { end: u8, host: u8, params: Params },
    Call { end: u8, clock: u64, verb: Verb },
    Why { end: u8, clock: u64, verb: Verb },
    Read(Vec<u8>),
    Write(Composed),
    WriteProbe,
    Test(Cue),
    Copy { end: u8, other: u8 },
    Set { end: u8, field: Field },
    Ask { end: u8, asked: Asked },
    AskOutput,
    Show { end: u8 },
}

/// An event.
#[derive(Clone, Debug, PartialEq, Eq)]
pub enum Verb {
    Join,
    Joined,
    Leave,
    Left,
    Crash,
    Fire,
    Report,
    Send(Cue),
    Hear(Brought),
    /// SOURCE 0..255, NUMBER 0..65535.
    Fetch(u8, u16),
    Announce,
}

/// The message that an Arrival brings.
#[derive(Clone, Debug, PartialEq, Eq)]
pub enum Brought {
    Number(u64),
    Bytes(Vec<u8>),
    Composed(Composed),
}

/// A message in words. `counts` stand in the place of its own four.
#[derive(Clone, Debug, PartialEq, Eq)]
pub struct Composed {
    pub message: Message,
    pub counts: Option<[u64; 4]>,
}

/// The place of a record.
#[derive(Clone, Copy, Debug, PartialEq, Eq)]
pub struct At {
    pub source: u8,
    pub place: u8,
}

/// A field of a state, with the value to set.
#[derive(Clone, Debug, PartialEq, Eq)]
pub enum Field {
    Host(u8),
    Clock(u64),
    Next(u32),
    Params(Params),
    Status(Status),
    Span { source: u8, first: u16, last: u16 },
    Closed(u8),
    Missed(u8, u32),
    Pair(u8, Pair),
    NoPair(u8),
    Distance(u8, u64),
    Heard(u8, Heard),
    Unheard(u8),
    Origin(u8, u16),
    NoOrigin(u8),
    Attempt(At, Attempt),
    Empty(At),
    Held(At),
    Waits(At, Request),
    Reply(At, Reply),
    Cue(At, Cue),
    Hush(At, u64),
}

/// What is asked of a state.
#[derive(Clone, Debug, PartialEq, Eq)]
pub enum Asked {
    Clock,
    Next,
    Status,
    Host,
    Params,
    Distance(u8),
    Span(u8),
    Missed(u8),
    Pair(u8),
    Heard(u8),
    Origin(u8),
    Attempt(At),
    Record(At),
    Same(u8),
}

impl Line {
    /// A line, without its line feed; none where it is malformed.
    pub fn parse(line: &[u8]) -> Option<Line> {
        if line.len() > LINE {
            return None;
        }
        if let [b'#', heading @ ..] = line {
            return Some(Line::Heading(text(heading)));
        }
        let (line, remark) = cut(line, b" | ");
        if line.is_empty() {
            return Some(Line::Blank);
        }
        let (line, expected) = cut(line, b" = ");
        let does = Does::parse(std::str::from_utf8(line).ok()?)?;
        match expected {
            Some([]) => return None,
            Some(_) if !does.answers() => return None,
            _ => {}
        }
        Some(Line::Row(Row {
            does,
            expected: expected.map(text),
            remark: remark.map(text),
        }))
    }
}

/// What stands before the first mark, and what after it.
fn cut<'a>(line: &'a [u8], mark: &[u8; 3]) -> (&'a [u8], Option<&'a [u8]>) {
    match line.windows(mark.len()).position(|window| window == mark) {
        Some(at) => (&line[..at], Some(&line[at + mark.len()..])),
        None => (line, None),
    }
}

/// Bytes that nothing but a reader's eye looks at, or that are compared with ASCII.
fn text(bytes: &[u8]) -> String {
    String::from_utf8_lossy(bytes).into_owned()
}

/// The words of a line that are still to be read. Two spaces, or one at either end,
/// make an empty word, which no place takes.
struct Words<'a>(std::iter::Peekable<std::str::Split<'a, char>>);

impl<'a> Words<'a> {
    fn new(line: &'a str) -> Words<'a> {
        Words(line.split(' ').peekable())
    }

    fn word(&mut self) -> Option<&'a str> {
        self.0.next()
    }

    /// Takes the next word where it is this one.
    fn takes(&mut self, word: &str) -> bool {
        self.0.next_if_eq(&word).is_some()
    }

    fn are_over(&mut self) -> bool {
        self.0.peek().is_none()
    }

    fn number(&mut self) -> Option<u64> {
        decimal(self.word()?)
    }

    fn below(&mut self, bound: u8) -> Option<u8> {
        self.byte().filter(|&value| value < bound)
    }

    fn byte(&mut self) -> Option<u8> {
        u8::try_from(self.number()?).ok()
    }

    /// A cue number, 0..65535.
    fn cue_number(&mut self) -> Option<u16> {
        u16::try_from(self.number()?).ok()
    }

    /// A number below 2^32.
    fn count(&mut self) -> Option<u32> {
        u32::try_from(self.number()?).ok()
    }

    fn draw(&mut self) -> Option<Draw> {
        Draw::try_from(self.number()?).ok()
    }

    fn bytes(&mut self) -> Option<Vec<u8>> {
        hexadecimal(self.word()?).filter(|bytes| bytes.len() <= MESSAGE)
    }

    fn source(&mut self) -> Option<u8> {
        self.below(HOSTS)
    }

    fn at(&mut self) -> Option<At> {
        Some(At {
            source: self.source()?,
            place: self.below(PLACES)?,
        })
    }

    /// Six numbers; E is 0.
    fn params(&mut self) -> Option<Params> {
        Some(Params {
            e: 0,
            c1: self.byte()?,
            c2: self.byte()?,
            c3: self.byte()?,
            d1: self.byte()?,
            d2: self.byte()?,
            d3: self.byte()?,
        })
    }

    /// Six numbers and E, which may be left out where nothing follows.
    fn opening_params(&mut self) -> Option<Params> {
        let params = self.params()?;
        if self.are_over() {
            return Some(params);
        }
        self.express_of(params)
    }

    /// E, 0..65535, after the other parameters.
    fn express_of(&mut self, params: Params) -> Option<Params> {
        let e = u16::try_from(self.number()?).ok()?;
        Some(Params { e, ..params })
    }

    fn all_params(&mut self) -> Option<Params> {
        let params = self.params()?;
        self.express_of(params)
    }

    fn pair(&mut self) -> Option<Pair> {
        Some(Pair {
            requester: self.byte()?,
            sender: self.byte()?,
            number: self.cue_number()?,
        })
    }

    /// `STAMP WHEN`, and perhaps SOURCES, without which they are none.
    fn heard(&mut self) -> Option<Heard> {
        let heard = Heard {
            stamp: self.number()?,
            at: self.number()?,
            sources: 0,
        };
        if self.are_over() {
            return Some(heard);
        }
        let sources = self.byte()?;
        Some(Heard { sources, ..heard })
    }

    /// `TRIED LATE`.
    fn attempt(&mut self) -> Option<Attempt> {
        Some(Attempt {
            tried: self.byte()?,
            late: self.below(2)? == 1,
        })
    }

    /// `ROUND DUE QUIET`, and perhaps `express DUE`.
    fn request(&mut self) -> Option<Request> {
        let request = Request {
            round: self.byte()?,
            due: self.number()?,
            quiet_until: self.number()?,
            express: None,
        };
        if !self.takes("express") {
            return Some(request);
        }
        let express = Some(self.number()?);
        Some(Request { express, ..request })
    }

    /// `FOCUS`, or five fields, or `bytes` and its 24 bytes.
    fn cue(&mut self) -> Option<Cue> {
        if self.takes("bytes") {
            return self.cue_bytes();
        }
        let focus = signed(self.word()?)?;
        if self.are_over() {
            return Some(Cue::with_focus(focus));
        }
        self.fields(focus)
    }

    /// The fields of a cue after its focus.
    fn fields(&mut self, focus: i16) -> Option<Cue> {
        let mut cue = Cue::with_focus(focus);
        for at in [2, 4, 6] {
            let offset = signed(self.word()?)?;
            cue.0[at..at + 2].copy_from_slice(&offset.to_be_bytes());
        }
        let lamp = u16::try_from(self.number()?).ok()?;
        cue.0[8..10].copy_from_slice(&lamp.to_be_bytes());
        Some(cue)
    }

    fn cue_bytes(&mut self) -> Option<Cue> {
        let bytes: [u8; CUE_LEN] = self.bytes()?.try_into().ok()?;
        Some(Cue(bytes))
    }

    fn composed(&mut self) -> Option<Composed> {
        let mut message = Message {
            kind: kind(self.word()?)?,
            sender: self.byte()?,
            stamp: self.number()?,
            names: Vec::new(),
            cues: Vec::new(),
            reports: Vec::new(),
            echoes: Vec::new(),
        };
        while message.names.len() < NAMES && self.takes("name") {
            message.names.push(self.name()?);
        }
        if self.takes("cue") {
            let focus = signed(self.word()?)?;
            message.cues.push(self.fields(focus)?);
        } else if self.takes("cuebytes") {
            message.cues.push(self.cue_bytes()?);
        }
        while message.reports.len() < REPORTS && self.takes("report") {
            message.reports.push(self.report()?);
        }
        while message.echoes.len() < ECHOES && self.takes("echo") {
            message.echoes.push(self.echo()?);
        }
        let counts = if self.takes("counts") {
            Some(self.counts()?)
        } else {
            None
        };
        Some(Composed { message, counts })
    }

    fn name(&mut self) -> Option<Name> {
        Some(Name {
            source: self.byte()?,
            number: self.cue_number()?,
            host: self.byte()?,
        })
    }

    fn report(&mut self) -> Option<Report> {
        Some(Report {
            source: self.byte()?,
            last: self.cue_number()?,
        })
    }

    fn echo(&mut self) -> Option<Echo> {
        Some(Echo {
            host: self.byte()?,
            stamp: self.number()?,
            held: self.number()?,
        })
    }

    fn counts(&mut self) -> Option<[u64; 4]> {
        Some([
            self.number()?,
            self.number()?,
            self.number()?,
            self.number()?,
        ])
    }
}

const NAMES: usize = 2;
const CUES: usize = 1;
const REPORTS: usize = 8;
const ECHOES: usize = 7;

impl Does {
    /// The part of a line before its expectation and its remark.
    pub fn parse(line: &str) -> Option<Does> {
        let mut words = Words::new(line);
        let does = match words.word()? {
            "start" => Does::Start,
            "draws" => Does::Draws {
                count: words.below(MOST_DRAWS + 1)?,
                first: words.draw()?,
                step: words.draw()?,
            },
            "draw" => Does::Draw {
                place: words.below(MOST_DRAWS)?,
                value: words.draw()?,
            },
            "each" => each(&mut words)?,
            "room" => Does::Room(words.below(BUFFER + 1)?),
            "fill" => Does::Fill(words.byte()?),
            "read" => Does::Read(words.bytes()?),
            "write" if words.takes("probe") => Does::WriteProbe,
            "write" => Does::Write(words.composed()?),
            "test" => Does::Test(words.cue()?),
            "ask" if words.takes("output") => Does::AskOutput,
            place => {
                let end = u8::try_from(decimal(place)?).ok()?;
                on_end(Some(end).filter(|&end| end < ENDS)?, &mut words)?
            }
        };
        words.are_over().then_some(does)
    }

    /// Has the line an answer?
    pub fn answers(&self) -> bool {
        use Does::*;
        matches!(
            self,
            Open { .. }
                | Call { .. }
                | Why { .. }
                | Read(_)
                | Write(_)
                | WriteProbe
                | Test(_)
                | Ask { .. }
                | AskOutput
        )
    }
}

/// `each VALUE VALUE ..`, "at most 66", at least one.
fn each(words: &mut Words) -> Option<Does> {
    let mut values = vec![words.draw()?];
    while !words.are_over() {
        values.push(words.draw()?);
    }
    (values.len() <= usize::from(MOST_DRAWS)).then_some(Does::Each(values))
}

/// "draw i is (FIRST + i × STEP) modulo 65536".
pub fn row_of_draws(count: u8, first: Draw, step: Draw) -> Vec<Draw> {
    let draw = |place: u8| first.wrapping_add(step.wrapping_mul(place.into()));
    (0..count).map(draw).collect()
}

fn on_end(end: u8, words: &mut Words) -> Option<Does> {
    Some(match words.word()? {
        "open" => Does::Open {
            end,
            host: words.byte()?,
            params: words.opening_params()?,
        },
        "copy" => Does::Copy {
            end,
            other: words.below(ENDS)?,
        },
        "set" => Does::Set {
            end,
            field: field(words)?,
        },
        "ask" => Does::Ask {
            end,
            asked: asked(words)?,
        },
        "show" => Does::Show { end },
        "why" => {
            let (clock, verb) = event(words.word()?, words)?;
            Does::Why { end, clock, verb }
        }
        verb => {
            let (clock, verb) = event(verb, words)?;
            Does::Call { end, clock, verb }
        }
    })
}

/// What follows END in an event's line: the verb, the clock, and what it brings.
fn event(verb: &str, words: &mut Words) -> Option<(u64, Verb)> {
    let clock = words.number()?;
    let verb = match verb {
        "join" => Verb::Join,
        "joined" => Verb::Joined,
        "leave" => Verb::Leave,
        "left" => Verb::Left,
        "crash" => Verb::Crash,
        "fire" => Verb::Fire,
        "report" => Verb::Report,
        "send" => Verb::Send(words.cue()?),
        "hear" => Verb::Hear(brought(words)?),
        "fetch" => Verb::Fetch(words.byte()?, words.cue_number()?),
        "announce" => Verb::Announce,
        _ => return None,
    };
    Some((clock, verb))
}

/// One word is the number of a message; a kind may be a number too, but more follows it.
fn brought(words: &mut Words) -> Option<Brought> {
    if words.takes("bytes") {
        return words.bytes().map(Brought::Bytes);
    }
    let mut ahead = words.0.clone();
    if ahead.nth(1).is_none() {
        return words.number().map(Brought::Number);
    }
    words.composed().map(Brought::Composed)
}

fn field(words: &mut Words) -> Option<Field> {
    Some(match words.word()? {
        "host" => Field::Host(words.byte()?),
        "clock" => Field::Clock(words.number()?),
        "next" => Field::Next(words.count()?),
        "params" => Field::Params(words.all_params()?),
        "status" => Field::Status(status(words.word()?)?),
        "span" => Field::Span {
            source: words.source()?,
            first: words.cue_number()?,
            last: words.cue_number()?,
        },
        "closed" => Field::Closed(words.source()?),
        "missed" => Field::Missed(words.source()?, words.count()?),
        "pair" => Field::Pair(words.source()?, words.pair()?),
        "nopair" => Field::NoPair(words.source()?),
        "distance" => Field::Distance(words.source()?, words.number()?),
        "heard" => Field::Heard(words.source()?, words.heard()?),
        "unheard" => Field::Unheard(words.source()?),
        "origin" => Field::Origin(words.source()?, words.cue_number()?),
        "noorigin" => Field::NoOrigin(words.source()?),
        "attempt" => Field::Attempt(words.at()?, words.attempt()?),
        "empty" => Field::Empty(words.at()?),
        "held" => Field::Held(words.at()?),
        "waits" => Field::Waits(words.at()?, words.request()?),
        "reply" => Field::Reply(
            words.at()?,
            Reply {
                due: words.number()?,
                requester: words.byte()?,
            },
        ),
        "cue" => Field::Cue(words.at()?, words.cue()?),
        "hush" => Field::Hush(words.at()?, words.number()?),
        _ => return None,
    })
}

fn asked(words: &mut Words) -> Option<Asked> {
    Some(match words.word()? {
        "clock" => Asked::Clock,
        "next" => Asked::Next,
        "status" => Asked::Status,
        "host" => Asked::Host,
        "params" => Asked::Params,
        "distance" => Asked::Distance(words.source()?),
        "span" => Asked::Span(words.source()?),
        "missed" => Asked::Missed(words.source()?),
        "pair" => Asked::Pair(words.source()?),
        "heard" => Asked::Heard(words.source()?),
        "origin" => Asked::Origin(words.source()?),
        "attempt" => Asked::Attempt(words.at()?),
        "record" => Asked::Record(words.at()?),
        "same" => Asked::Same(words.below(ENDS)?),
        _ => return None,
    })
}

const STATUSES: [(Status, &str); 5] = [
    (Status::Idle, "idle"),
    (Status::Joining, "joining"),
    (Status::Member, "member"),
    (Status::Leaving, "leaving"),
    (Status::Crashed, "crashed"),
];

fn status(word: &str) -> Option<Status> {
    let found = STATUSES.iter().find(|(_, said)| *said == word);
    found.map(|&(status, _)| status)
}

impl fmt::Display for Status {
    fn fmt(&self, f: &mut fmt::Formatter<'_>) -> fmt::Result {
        let said = STATUSES.iter().find(|(status, _)| status == self);
        f.write_str(said.map_or("", |(_, word)| word))
    }
}

const KINDS: [(u8, &str); 8] = [
    (message::DATA, "data"),
    (message::RQST, "rqst"),
    (message::REPL, "repl"),
    (message::SESS, "sess"),
    (message::XPRS, "xprs"),
    (message::FTCH, "ftch"),
    (message::LATE, "late"),
    (message::ANNC, "annc"),
];

fn kind(word: &str) -> Option<u8> {
    match KINDS.iter().find(|(_, said)| *said == word) {
        Some(&(kind, _)) => Some(kind),
        None => u8::try_from(decimal(word)?).ok(),
    }
}

/// A kind as a word, or as a number where it has none.
pub struct Kind(pub u8);

impl fmt::Display for Kind {
    fn fmt(&self, f: &mut fmt::Formatter<'_>) -> fmt::Result {
        match KINDS.iter().find(|(kind, _)| *kind == self.0) {
            Some((_, word)) => f.write_str(word),
            None => write!(f, "{}", self.0),
        }
    }
}

impl Composed {
    /// A message with the counts that it has.
    pub fn of(message: Message) -> Composed {
        Composed {
            message,
            counts: None,
        }
    }

    /// The message that the writer is asked to write. Parts that are not written down are
    /// zeros. No kind has more of a section than a message has places for, so a count
    /// above that is as good as one above by one.
    pub fn to_message(&self) -> Message {
        let mut message = self.message.clone();
        if let Some([names, cues, reports, echoes]) = self.counts {
            let count = |wanted: u64, places: usize| {
                usize::try_from(wanted).map_or(places + 1, |wanted| wanted.min(places + 1))
            };
            let name = Name {
                source: 0,
                number: 0,
                host: 0,
            };
            let echo = Echo {
                host: 0,
                stamp: 0,
                held: 0,
            };
            let report = Report { source: 0, last: 0 };
            message.names.resize(count(names, NAMES), name);
            message.cues.resize(count(cues, CUES), Cue::ZERO);
            message.reports.resize(count(reports, REPORTS), report);
            message.echoes.resize(count(echoes, ECHOES), echo);
        }
        message
    }
}

/// A cue's four offsets and its lamp.
pub struct Fields<'a>(pub &'a Cue);

impl fmt::Display for Fields<'_> {
    fn fmt(&self, f: &mut fmt::Formatter<'_>) -> fmt::Result {
        let cue = self.0;
        let (focus, zoom) = (cue.focus(), cue.zoom());
        let (sideways, upright, lamp) = (cue.sideways(), cue.upright(), cue.lamp());
        write!(f, "{focus} {zoom} {sideways} {upright} {lamp}")
    }
}

/// A message in words, its cues as fields: the free bytes stay unsaid.
pub struct InWords<'a>(pub &'a Message);

impl fmt::Display for InWords<'_> {
    fn fmt(&self, f: &mut fmt::Formatter<'_>) -> fmt::Result {
        let cue = |cue: &Cue| format!(" cue {}", Fields(cue));
        print_message(self.0, cue, f)
    }
}

fn print_message(
    message: &Message,
    cue: impl Fn(&Cue) -> String,
    f: &mut fmt::Formatter<'_>,
) -> fmt::Result {
    let Message {
        kind,
        sender,
        stamp,
        ..
    } = message;
    write!(f, "{} {sender} {stamp}", Kind(*kind))?;
    for name in &message.names {
        write!(f, " name {} {} {}", name.source, name.number, name.host)?;
    }
    for held in &message.cues {
        f.write_str(&cue(held))?;
    }
    for report in &message.reports {
        write!(f, " report {} {}", report.source, report.last)?;
    }
    for echo in &message.echoes {
        write!(f, " echo {} {} {}", echo.host, echo.stamp, echo.held)?;
    }
    Ok(())
}

impl fmt::Display for Composed {
    fn fmt(&self, f: &mut fmt::Formatter<'_>) -> fmt::Result {
        let cue = |cue: &Cue| match cue.0[10..] {
            [0, 0, 0, 0, 0, 0, 0, 0, 0, 0, 0, 0, 0, 0] => format!(" cue {}", Fields(cue)),
            _ => format!(" cuebytes {}", Hex(&cue.0)),
        };
        print_message(&self.message, cue, f)?;
        match self.counts {
            Some([names, cues, reports, echoes]) => {
                write!(f, " counts {names} {cues} {reports} {echoes}")
            }
            None => Ok(()),
        }
    }
}

/// A cue in its shortest form: `FOCUS`, or five fields, or `bytes` and its 24 bytes.
impl fmt::Display for Cue {
    fn fmt(&self, f: &mut fmt::Formatter<'_>) -> fmt::Result {
        if *self == Cue::with_focus(self.focus()) {
            write!(f, "{}", self.focus())
        } else if self.0[10..].iter().all(|&byte| byte == 0) {
            write!(f, "{}", Fields(self))
        } else {
            write!(f, "bytes {}", Hex(&self.0))
        }
    }
}

/// The parameters without E.
struct Six<'a>(&'a Params);

impl fmt::Display for Six<'_> {
    fn fmt(&self, f: &mut fmt::Formatter<'_>) -> fmt::Result {
        let Params {
            c1,
            c2,
            c3,
            d1,
            d2,
            d3,
            e: _,
        } = self.0;
        write!(f, "{c1} {c2} {c3} {d1} {d2} {d3}")
    }
}

/// The parameters with E.
impl fmt::Display for Params {
    fn fmt(&self, f: &mut fmt::Formatter<'_>) -> fmt::Result {
        write!(f, "{} {}", Six(self), self.e)
    }
}

/// `ROUND DUE QUIET`, and ` express DUE` where there is such a wait.
impl fmt::Display for Request {
    fn fmt(&self, f: &mut fmt::Formatter<'_>) -> fmt::Result {
        write!(f, "{} {} {}", self.round, self.due, self.quiet_until)?;
        match self.express {
            Some(due) => write!(f, " express {due}"),
            None => Ok(()),
        }
    }
}

impl fmt::Display for Pair {
    fn fmt(&self, f: &mut fmt::Formatter<'_>) -> fmt::Result {
        write!(f, "{} {} {}", self.requester, self.sender, self.number)
    }
}

/// `STAMP WHEN SOURCES`.
impl fmt::Display for Heard {
    fn fmt(&self, f: &mut fmt::Formatter<'_>) -> fmt::Result {
        write!(f, "{} {} {}", self.stamp, self.at, self.sources)
    }
}

/// `TRIED LATE`.
impl fmt::Display for Attempt {
    fn fmt(&self, f: &mut fmt::Formatter<'_>) -> fmt::Result {
        write!(f, "{} {}", self.tried, u8::from(self.late))
    }
}

impl fmt::Display for At {
    fn fmt(&self, f: &mut fmt::Formatter<'_>) -> fmt::Result {
        write!(f, "{} {}", self.source, self.place)
    }
}

impl fmt::Display for Line {
    fn fmt(&self, f: &mut fmt::Formatter<'_>) -> fmt::Result {
        match self {
            Line::Blank => Ok(()),
            Line::Heading(heading) => write!(f, "#{heading}"),
            Line::Row(row) => row.fmt(f),
        }
    }
}

impl fmt::Display for Row {
    fn fmt(&self, f: &mut fmt::Formatter<'_>) -> fmt::Result {
        self.does.fmt(f)?;
        if let Some(expected) = &self.expected {
            write!(f, " = {expected}")?;
        }
        if let Some(remark) = &self.remark {
            write!(f, " | {remark}")?;
        }
        Ok(())
    }
}

impl fmt::Display for Does {
    fn fmt(&self, f: &mut fmt::Formatter<'_>) -> fmt::Result {
        match self {
            Does::Start => f.write_str("start"),
            Does::Draws { count, first, step } => write!(f, "draws {count} {first} {step}"),
            Does::Draw { place, value } => write!(f, "draw {place} {value}"),
            Does::Each(values) => {
                f.write_str("each")?;
                values.iter().try_for_each(|value| write!(f, " {value}"))
            }
            Does::Room(bytes) => write!(f, "room {bytes}"),
            Does::Fill(byte) => write!(f, "fill {byte}"),
            Does::Open { end, host, params } => {
                let six = Six(params);
                match params.e {
                    0 => write!(f, "{end} open {host} {six}"),
                    e => write!(f, "{end} open {host} {six} {e}"),
                }
            }
            Does::Call { end, clock, verb } => {
                write!(f, "{end} ")?;
                print_event(*clock, verb, f)
            }
            Does::Why { end, clock, verb } => {
                write!(f, "{end} why ")?;
                print_event(*clock, verb, f)
            }
            Does::Read(bytes) => write!(f, "read {}", Hex(bytes)),
            Does::Write(composed) => write!(f, "write {composed}"),
            Does::WriteProbe => f.write_str("write probe"),
            Does::Test(cue) => write!(f, "test {cue}"),
            Does::Copy { end, other } => write!(f, "{end} copy {other}"),
            Does::Set { end, field } => write!(f, "{end} set {field}"),
            Does::Ask { end, asked } => write!(f, "{end} ask {asked}"),
            Does::AskOutput => f.write_str("ask output"),
            Does::Show { end } => write!(f, "{end} show"),
        }
    }
}

fn print_event(clock: u64, verb: &Verb, f: &mut fmt::Formatter<'_>) -> fmt::Result {
    match verb {
        Verb::Join => write!(f, "join {clock}"),
        Verb::Joined => write!(f, "joined {clock}"),
        Verb::Leave => write!(f, "leave {clock}"),
        Verb::Left => write!(f, "left {clock}"),
        Verb::Crash => write!(f, "crash {clock}"),
        Verb::Fire => write!(f, "fire {clock}"),
        Verb::Report => write!(f, "report {clock}"),
        Verb::Send(cue) => write!(f, "send {clock} {cue}"),
        Verb::Hear(brought) => write!(f, "hear {clock} {brought}"),
        Verb::Fetch(source, number) => write!(f, "fetch {clock} {source} {number}"),
        Verb::Announce => write!(f, "announce {clock}"),
    }
}

impl fmt::Display for Brought {
    fn fmt(&self, f: &mut fmt::Formatter<'_>) -> fmt::Result {
        match self {
            Brought::Number(number) => number.fmt(f),
            Brought::Bytes(bytes) => write!(f, "bytes {}", Hex(bytes)),
            Brought::Composed(composed) => composed.fmt(f),
        }
    }
}

impl fmt::Display for Field {
    fn fmt(&self, f: &mut fmt::Formatter<'_>) -> fmt::Result {
        match self {
            Field::Host(host) => write!(f, "host {host}"),
            Field::Clock(clock) => write!(f, "clock {clock}"),
            Field::Next(next) => write!(f, "next {next}"),
            Field::Params(params) => write!(f, "params {params}"),
            Field::Status(status) => write!(f, "status {status}"),
            Field::Span {
                source,
                first,
                last,
            } => write!(f, "span {source} {first} {last}"),
            Field::Closed(source) => write!(f, "closed {source}"),
            Field::Missed(source, missed) => write!(f, "missed {source} {missed}"),
            Field::Pair(source, pair) => write!(f, "pair {source} {pair}"),
            Field::NoPair(source) => write!(f, "nopair {source}"),
            Field::Distance(source, distance) => write!(f, "distance {source} {distance}"),
            Field::Heard(source, heard) => match heard.sources {
                0 => write!(f, "heard {source} {} {}", heard.stamp, heard.at),
                _ => write!(f, "heard {source} {heard}"),
            },
            Field::Unheard(source) => write!(f, "unheard {source}"),
            Field::Origin(source, number) => write!(f, "origin {source} {number}"),
            Field::NoOrigin(source) => write!(f, "noorigin {source}"),
            Field::Attempt(at, attempt) => write!(f, "attempt {at} {attempt}"),
            Field::Empty(at) => write!(f, "empty {at}"),
            Field::Held(at) => write!(f, "held {at}"),
            Field::Waits(at, request) => write!(f, "waits {at} {request}"),
            Field::Reply(at, reply) => write!(f, "reply {at} {} {}", reply.due, reply.requester),
            Field::Cue(at, cue) => write!(f, "cue {at} {cue}"),
            Field::Hush(at, time) => write!(f, "hush {at} {time}"),
        }
    }
}

impl fmt::Display for Asked {
    fn fmt(&self, f: &mut fmt::Formatter<'_>) -> fmt::Result {
        match self {
            Asked::Clock => f.write_str("clock"),
            Asked::Next => f.write_str("next"),
            Asked::Status => f.write_str("status"),
            Asked::Host => f.write_str("host"),
            Asked::Params => f.write_str("params"),
            Asked::Distance(source) => write!(f, "distance {source}"),
            Asked::Span(source) => write!(f, "span {source}"),
            Asked::Missed(source) => write!(f, "missed {source}"),
            Asked::Pair(source) => write!(f, "pair {source}"),
            Asked::Heard(source) => write!(f, "heard {source}"),
            Asked::Origin(source) => write!(f, "origin {source}"),
            Asked::Attempt(at) => write!(f, "attempt {at}"),
            Asked::Record(at) => write!(f, "record {at}"),
            Asked::Same(other) => write!(f, "same {other}"),
        }
    }
}
