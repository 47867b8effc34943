//! The judge of a kept run: document 02, P13, read from its words and from document 01's book. It keeps the book as the words have it and goes
//! through the record line by line.

use std::fmt;

use crate::cue::{Cue, CUE_LEN};
use crate::end::{Event, Status};
use crate::text::{decimal, hexadecimal, Hex};
use crate::HOSTS;

pub use crate::random::records::{random_record, random_records};

/// "More than 1,024 lines prints "refused 16"".
pub const LINES: usize = 1024;

/// "Got now also needs a number not below L−63" (P7).
const BELOW_HIGHEST: u16 = 63;

/// A line of a record.
#[derive(Clone, Copy, Debug, PartialEq, Eq)]
pub enum Line {
    Join(u8),
    Joined(u8),
    Leave(u8),
    Left(u8),
    Crash(u8),
    Send { host: u8, number: u16, cue: Cue },
    Got { host: u8, source: u8, number: u16, cue: Cue },
}

/// What the program prints.
#[derive(Clone, Copy, Debug, PartialEq, Eq)]
pub enum Verdict {
    Allowed,
    /// "the number, from 1, of the first line at which the prefix is no longer permitted".
    Broken(usize),
    Refused(u8),
}

impl fmt::Display for Verdict {
    fn fmt(&self, f: &mut fmt::Formatter<'_>) -> fmt::Result {
        match self {
            Verdict::Allowed => f.write_str("allowed"),
            Verdict::Broken(line) => write!(f, "{line}"),
            Verdict::Refused(number) => write!(f, "refused {number}"),
        }
    }
}

/// The verdict on a record. "More than 1,024 lines prints "refused 16", and otherwise a malformed line ([..] or a last line without line feed
/// too) "refused 17", both before judging": such a rest is a line, so it counts among the 1,024.
pub fn judge(record: &[u8]) -> Verdict {
    let mut lines: Vec<&[u8]> = record.split(|&byte| byte == b'\n').collect();
    let rest = lines.pop().unwrap_or_default();
    if lines.len() + usize::from(!rest.is_empty()) > LINES {
        return Verdict::Refused(16);
    }
    let read: Option<Vec<Line>> = lines.into_iter().map(Line::parse).collect();
    match read {
        Some(lines) if rest.is_empty() => judged(&lines),
        _ => Verdict::Refused(17),
    }
}

fn judged(lines: &[Line]) -> Verdict {
    let mut book = Book::default();
    for (place, line) in lines.iter().enumerate() {
        if !book.permits(line) {
            return Verdict::Broken(place + 1);
        }
        book.enter(line);
    }
    Verdict::Allowed
}

impl Line {
    /// "there is one space between words, a line feed after each line, and decimal numbers without leading zeros or plus sign" (document 01,
    /// of "later text inputs").
    pub fn parse(line: &[u8]) -> Option<Line> {
        let words: Vec<&str> = std::str::from_utf8(line).ok()?.split(' ').collect();
        let line = match words[..] {
            ["join", host] => Line::Join(host_of(host)?),
            ["joined", host] => Line::Joined(host_of(host)?),
            ["leave", host] => Line::Leave(host_of(host)?),
            ["left", host] => Line::Left(host_of(host)?),
            ["crash", host] => Line::Crash(host_of(host)?),
            ["send", host, number, cue] => Line::Send {
                host: host_of(host)?,
                number: number_of(number)?,
                cue: cue_of(cue)?,
            },
            ["got", host, source, number, cue] => Line::Got {
                host: host_of(host)?,
                source: host_of(source)?,
                number: number_of(number)?,
                cue: cue_of(cue)?,
            },
            _ => return None,
        };
        Some(line)
    }

    fn host(&self) -> u8 {
        match *self {
            Line::Join(host) | Line::Joined(host) | Line::Leave(host) => host,
            Line::Left(host) | Line::Crash(host) => host,
            Line::Send { host, .. } | Line::Got { host, .. } => host,
        }
    }

    /// The event of a line that is a move.
    fn moves(&self) -> Option<Event> {
        match self {
            Line::Join(_) => Some(Event::Join),
            Line::Joined(_) => Some(Event::Joined),
            Line::Leave(_) => Some(Event::Leave),
            Line::Left(_) => Some(Event::Left),
            Line::Crash(_) => Some(Event::Crash),
            Line::Send { .. } | Line::Got { .. } => None,
        }
    }
}

impl fmt::Display for Line {
    /// The line without its line feed.
    fn fmt(&self, f: &mut fmt::Formatter<'_>) -> fmt::Result {
        match self {
            Line::Join(host) => write!(f, "join {host}"),
            Line::Joined(host) => write!(f, "joined {host}"),
            Line::Leave(host) => write!(f, "leave {host}"),
            Line::Left(host) => write!(f, "left {host}"),
            Line::Crash(host) => write!(f, "crash {host}"),
            Line::Send { host, number, cue } => write!(f, "send {host} {number} {}", Hex(&cue.0)),
            Line::Got { host, source, number, cue } => write!(f, "got {host} {source} {number} {}", Hex(&cue.0)),
        }
    }
}

/// "host above 7" is malformed.
fn host_of(word: &str) -> Option<u8> {
    let host = u8::try_from(decimal(word)?).ok()?;
    (host < HOSTS).then_some(host)
}

/// "number above 65,535" is malformed.
fn number_of(word: &str) -> Option<u16> {
    u16::try_from(decimal(word)?).ok()
}

/// "the cue as 48 hexadecimal digits, letters capital"; "cue out of range" is malformed.
fn cue_of(word: &str) -> Option<Cue> {
    let bytes: [u8; CUE_LEN] = hexadecimal(word)?.try_into().ok()?;
    Some(Cue(bytes)).filter(Cue::in_range)
}

/// The book of a record: what its lines before this one have brought.
#[derive(Clone)]
pub struct Book {
    pub(crate) status: [Status; HOSTS as usize],
    /// By source: "the cue is filed for good under the host's next number, from 0".
    pub(crate) filed: [Vec<Cue>; HOSTS as usize],
    /// By reader and source: the numbers handed out since joining, in order.
    pub(crate) handed: [[Vec<u16>; HOSTS as usize]; HOSTS as usize],
}

impl Default for Book {
    /// "It starts with every host idle and nothing sent."
    fn default() -> Book {
        Book {
            status: [Status::Idle; HOSTS as usize],
            filed: Default::default(),
            handed: Default::default(),
        }
    }
}

impl Book {
    /// "join, leave and crash lines anywhere, joined and left only where its status moves, send only as its Out, and got within its limits, L
    /// taken from got lines alone, and with the filed cue".
    pub fn permits(&self, line: &Line) -> bool {
        match *line {
            Line::Join(_) | Line::Leave(_) | Line::Crash(_) => true,
            Line::Joined(host) => self.status_of(host).after(&Event::Joined).is_some(),
            Line::Left(host) => self.status_of(host).after(&Event::Left).is_some(),
            // "Send: for a member the cue is filed [..] under the host's next number, from 0; Out, a DATA with that name and cue."
            Line::Send { host, number, .. } => {
                self.status_of(host) == Status::Member && self.filed[usize::from(host)].len() == usize::from(number)
            }
            Line::Got { host, source, number, cue } => {
                self.within_limits(host, source, number) && self.filed_cue(source, number) == Some(cue)
            }
        }
    }

    /// Takes a line that is permitted.
    pub fn enter(&mut self, line: &Line) {
        let host = usize::from(line.host());
        if let Some(status) = line.moves().and_then(|event| self.status[host].after(&event)) {
            self.status[host] = status;
            // "'Since joining' counts from the last move to member, which clears the host's handed-out numbers."
            if status == Status::Member {
                self.handed[host] = Default::default();
            }
        }
        match *line {
            Line::Send { cue, .. } => self.filed[host].push(cue),
            Line::Got { source, number, .. } => self.handed[host][usize::from(source)].push(number),
            _ => {}
        }
    }

    /// "The limits: the reader is a member and not the source; the name is filed; its number is not below the first one handed out from that
    /// source since joining, if any, and not handed out since joining"; by P7 also "not below L−63".
    fn within_limits(&self, reader: u8, source: u8, number: u16) -> bool {
        let handed = &self.handed[usize::from(reader)][usize::from(source)];
        let first = handed.first();
        let highest = handed.iter().max();
        self.status_of(reader) == Status::Member
            && reader != source
            && self.filed_cue(source, number).is_some()
            && first.is_none_or(|&first| number >= first)
            && !handed.contains(&number)
            && highest.is_none_or(|highest| number >= highest.saturating_sub(BELOW_HIGHEST))
    }

    fn status_of(&self, host: u8) -> Status {
        self.status[usize::from(host)]
    }

    fn filed_cue(&self, source: u8, number: u16) -> Option<Cue> {
        self.filed[usize::from(source)].get(usize::from(number)).copied()
    }
}
