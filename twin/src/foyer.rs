//! The foyer: plays a script on two ends and a display and prints what they answer: docs/DISPLAYS.md.

use std::collections::VecDeque;
use std::fmt;
use std::io::{self, BufRead, Read, Write};

use crate::cue::{Cue, CUE_LEN};
use crate::end::{Answer, End, Event, Params};
use crate::screen::{Losses, Screen, Window};
use crate::text::{decimal, hexadecimal, signed, Hex};
use crate::{DRAWS, OUTPUT_LEN};

/// "at most 600 bytes, its line feed not counted".
pub const LINE: usize = 600;

/// "the last 64 are kept".
const KEPT: usize = 64;

/// "BYTES are at most 256 bytes".
const MESSAGE: usize = 256;

/// "It is the front of a buffer of 200 bytes, which is filled with 165".
pub const BUFFER: usize = 200;
const FILL: u8 = 165;

/// A line that does something.
#[derive(Clone, Debug, PartialEq, Eq)]
pub enum Does {
    Event { end: usize, clock: u64, verb: Verb },
    Open { own: u8, sender: u8 },
    Hear { clock: u64, brought: Brought },
    Step { clock: u64 },
    Set(Field),
    Room(u8),
    Show,
}

/// What an end is called with.
#[derive(Clone, Copy, Debug, PartialEq, Eq)]
pub enum Verb {
    Join,
    Joined,
    Leave,
    Left,
    Crash,
    Fire,
    Report,
    Announce,
    /// The focus.
    Send(i16),
    /// The number of a message.
    Hear(u64),
}

/// The message that a display hears.
#[derive(Clone, Debug, PartialEq, Eq)]
pub enum Brought {
    Number(u64),
    Bytes(Vec<u8>),
}

/// A field of the display, with the value to set.
#[derive(Clone, Copy, Debug, PartialEq, Eq)]
pub enum Field {
    Own(u8),
    Sender(u8),
    Clock(u64),
    Window(Option<Window>),
}

impl Does {
    /// A line without its line feed. The outer none is a malformed line; the inner one does nothing.
    pub fn parse(line: &[u8]) -> Option<Option<Does>> {
        if line.len() > LINE {
            return None;
        }
        if line.is_empty() || line[0] == b'#' {
            return Some(None);
        }
        // Two spaces, or one at either end, make an empty word, which no place takes.
        let line = std::str::from_utf8(line).ok()?;
        let words: Vec<&str> = line.split(' ').collect();
        let does = match words[..] {
            ["room", bytes] => Does::Room(below(bytes, BUFFER as u64 + 1)? as u8),
            ["2", ref words @ ..] => on_display(words)?,
            [end @ ("0" | "1"), verb, clock, ref rest @ ..] => Does::Event {
                end: usize::from(end == "1"),
                verb: verb_of(verb, rest)?,
                clock: decimal(clock)?,
            },
            _ => return None,
        };
        Some(Some(does))
    }
}

fn on_display(words: &[&str]) -> Option<Does> {
    Some(match *words {
        ["open", own, sender] => Does::Open {
            own: byte(own)?,
            sender: byte(sender)?,
        },
        ["hear", clock, number] => Does::Hear {
            clock: decimal(clock)?,
            brought: Brought::Number(decimal(number)?),
        },
        ["hear", clock, "bytes", bytes] => Does::Hear {
            clock: decimal(clock)?,
            brought: Brought::Bytes(hexadecimal(bytes).filter(|bytes| bytes.len() <= MESSAGE)?),
        },
        ["step", clock] => Does::Step {
            clock: decimal(clock)?,
        },
        ["set", "own", host] => Does::Set(Field::Own(byte(host)?)),
        ["set", "sender", host] => Does::Set(Field::Sender(byte(host)?)),
        ["set", "clock", clock] => Does::Set(Field::Clock(decimal(clock)?)),
        ["set", "unstarted"] => Does::Set(Field::Window(None)),
        ["set", "window", trail, lead, set] => Does::Set(Field::Window(Some(Window {
            trail: number(trail)?,
            lead: number(lead)?,
            received: decimal(set)?,
        }))),
        ["show"] => Does::Show,
        _ => return None,
    })
}

fn verb_of(verb: &str, rest: &[&str]) -> Option<Verb> {
    Some(match (verb, rest) {
        ("join", []) => Verb::Join,
        ("joined", []) => Verb::Joined,
        ("leave", []) => Verb::Leave,
        ("left", []) => Verb::Left,
        ("crash", []) => Verb::Crash,
        ("fire", []) => Verb::Fire,
        ("report", []) => Verb::Report,
        ("announce", []) => Verb::Announce,
        ("send", [focus]) => Verb::Send(signed(focus)?),
        ("hear", [number]) => Verb::Hear(decimal(number)?),
        _ => return None,
    })
}

fn below(word: &str, bound: u64) -> Option<u64> {
    decimal(word).filter(|&value| value < bound)
}

fn byte(word: &str) -> Option<u8> {
    u8::try_from(decimal(word)?).ok()
}

fn number(word: &str) -> Option<u16> {
    u16::try_from(decimal(word)?).ok()
}

impl fmt::Display for Does {
    fn fmt(&self, f: &mut fmt::Formatter<'_>) -> fmt::Result {
        match self {
            Does::Event { end, clock, verb } => match verb {
                Verb::Join => write!(f, "{end} join {clock}"),
                Verb::Joined => write!(f, "{end} joined {clock}"),
                Verb::Leave => write!(f, "{end} leave {clock}"),
                Verb::Left => write!(f, "{end} left {clock}"),
                Verb::Crash => write!(f, "{end} crash {clock}"),
                Verb::Fire => write!(f, "{end} fire {clock}"),
                Verb::Report => write!(f, "{end} report {clock}"),
                Verb::Announce => write!(f, "{end} announce {clock}"),
                Verb::Send(focus) => write!(f, "{end} send {clock} {focus}"),
                Verb::Hear(number) => write!(f, "{end} hear {clock} {number}"),
            },
            Does::Open { own, sender } => write!(f, "2 open {own} {sender}"),
            Does::Hear { clock, brought } => match brought {
                Brought::Number(number) => write!(f, "2 hear {clock} {number}"),
                Brought::Bytes(bytes) => write!(f, "2 hear {clock} bytes {}", Hex(bytes)),
            },
            Does::Step { clock } => write!(f, "2 step {clock}"),
            Does::Set(Field::Own(host)) => write!(f, "2 set own {host}"),
            Does::Set(Field::Sender(host)) => write!(f, "2 set sender {host}"),
            Does::Set(Field::Clock(clock)) => write!(f, "2 set clock {clock}"),
            Does::Set(Field::Window(None)) => f.write_str("2 set unstarted"),
            Does::Set(Field::Window(Some(window))) => {
                let Window {
                    trail,
                    lead,
                    received,
                } = window;
                write!(f, "2 set window {trail} {lead} {received}")
            }
            Does::Room(bytes) => write!(f, "room {bytes}"),
            Does::Show => f.write_str("2 show"),
        }
    }
}

/// Plays the script line by line. "At a malformed line, a number that is out of its range here, and an unknown message number it prints `bad`
/// and stops"; what came before stays printed.
pub fn play(mut script: impl BufRead, mut print: impl Write) -> io::Result<()> {
    let mut foyer = Foyer::open();
    let mut line = Vec::new();
    loop {
        line.clear();
        let most = LINE as u64 + 2;
        script.by_ref().take(most).read_until(b'\n', &mut line)?;
        if line.is_empty() {
            return Ok(());
        }
        let does = line.strip_suffix(b"\n").and_then(Does::parse);
        let played = match does {
            None => None,
            Some(None) => continue,
            Some(Some(does)) => foyer.play(&does),
        };
        match played {
            None => return writeln!(print, "bad"),
            Some(said) if said.is_empty() => {}
            Some(said) => writeln!(print, "{said}")?,
        }
    }
}

/// Two ends and a display.
pub struct Foyer {
    pub ends: [End; 2],
    pub screen: Screen,
    pub room: usize,
    pub buffer: [u8; BUFFER],
    /// So many bytes of the buffer the last answer of the display accounts for.
    pub accounted: usize,
    /// The answer and the losses of the last call of the display.
    pub last: Option<(Answer, Losses)>,
    pub messages: VecDeque<Vec<u8>>,
    pub put_out: u64,
}

impl Foyer {
    /// "Places 0 and 1 are ends, of hosts 0 and 1, opened as house opens them [...]; place 2 is a display, at first of host 2, following host
    /// 0"; the output has "at first 128" bytes.
    pub fn open() -> Foyer {
        Foyer {
            ends: [0, 1].map(|host| End::open(host, Params::STANDARD).1),
            screen: Screen::open(2, 0).1,
            room: OUTPUT_LEN,
            buffer: [FILL; BUFFER],
            accounted: 0,
            last: None,
            messages: VecDeque::new(),
            put_out: 0,
        }
    }

    /// What a line prints, perhaps nothing; none where it names an unknown message.
    pub fn play(&mut self, does: &Does) -> Option<String> {
        Some(match does {
            Does::Event { end, clock, verb } => self.event(*end, *clock, verb)?,
            Does::Open { own, sender } => self.open_screen(*own, *sender),
            Does::Hear { clock, brought } => {
                let bytes = match brought {
                    Brought::Number(number) => self.message(*number)?.clone(),
                    Brought::Bytes(bytes) => bytes.clone(),
                };
                self.call(*clock, |screen, out| screen.hear(*clock, &bytes, out))
            }
            Does::Step { clock } => self.call(*clock, |screen, out| {
                (screen.step(*clock, out), Losses::NONE)
            }),
            Does::Set(field) => {
                self.set(*field);
                String::new()
            }
            Does::Room(bytes) => {
                self.room = usize::from(*bytes);
                String::new()
            }
            Does::Show => self.show(),
        })
    }

    /// A message that was put out, by its number.
    pub fn message(&self, number: u64) -> Option<&Vec<u8>> {
        let ago = usize::try_from(self.put_out.checked_sub(number)?).ok()?;
        let place = self.messages.len().checked_sub(ago)?;
        self.messages.get(place)
    }

    /// "Messages are numbered from 0 as the ends and the display put them out".
    fn keep(&mut self, message: Vec<u8>) -> u64 {
        self.messages.push_back(message);
        if self.messages.len() > KEPT {
            self.messages.pop_front();
        }
        self.put_out += 1;
        self.put_out - 1
    }

    fn event(&mut self, end: usize, clock: u64, verb: &Verb) -> Option<String> {
        let event = match verb {
            Verb::Join => Event::Join,
            Verb::Joined => Event::Joined,
            Verb::Leave => Event::Leave,
            Verb::Left => Event::Left,
            Verb::Crash => Event::Crash,
            Verb::Fire => Event::Fire,
            Verb::Report => Event::Report,
            Verb::Announce => Event::Announce,
            Verb::Send(focus) => Event::Send(Cue::with_focus(*focus)),
            Verb::Hear(number) => Event::Arrival(self.message(*number)?.clone()),
        };
        let mut out = [0; OUTPUT_LEN];
        let answer = self.ends[end].event(&event, clock, &[0; DRAWS], &mut out);
        let said = self.words(answer, &out);
        Some(format!("{end} {clock} {said}"))
    }

    /// "the display at place 2 is opened [...] (where that is refused, the display that stands beside the number is kept)"; "after `2 open`,
    /// OUTPUT is `none`".
    fn open_screen(&mut self, own: u8, sender: u8) -> String {
        let (refused, screen) = Screen::open(own, sender);
        self.screen = screen;
        self.refill();
        match refused {
            Some(number) => format!("2 refused {number}"),
            None => "2 opened".to_string(),
        }
    }

    /// "a buffer of 200 bytes, which is filled with 165 before each `hear` and `step` at place 2".
    fn refill(&mut self) {
        self.buffer = [FILL; BUFFER];
        self.accounted = 0;
        self.last = None;
    }

    fn call(
        &mut self,
        clock: u64,
        called: impl FnOnce(&mut Screen, &mut [u8]) -> (Answer, Losses),
    ) -> String {
        self.refill();
        let trail = self.screen.window.map_or(0, |window| window.trail);
        let out = &mut self.buffer[..self.room];
        let (answer, losses) = called(&mut self.screen, out);
        self.last = Some((answer, losses));
        self.accounted = match answer {
            Answer::Out(length) => length,
            Answer::Got { .. } => CUE_LEN,
            _ => 0,
        };
        let buffer = self.buffer;
        let said = self.words(answer, &buffer);
        format!("2 {clock} {said}{}", lost(losses, trail))
    }

    /// "ANSWER is as house prints it".
    fn words(&mut self, answer: Answer, out: &[u8]) -> String {
        match answer {
            Answer::Out(length) => format!("out {}", self.keep(out[..length].to_vec())),
            Answer::Got { source, number } => {
                let focus = i16::from_be_bytes([out[0], out[1]]);
                format!("got {source} {number} {focus}")
            }
            Answer::Refused(question) => format!("refused {question}"),
            Answer::Done => "done".to_string(),
            Answer::Ignored => "ignored".to_string(),
            Answer::Nothing => "nothing".to_string(),
            // No script has these: its messages are put out by the ends and the display, and none fetches.
            Answer::Clash { source, number } => format!("clash {source} {number}"),
            Answer::Late { source, number } => format!("late {source} {number}"),
            Answer::Exhausted => "exhausted".to_string(),
        }
    }

    fn set(&mut self, field: Field) {
        match field {
            Field::Own(host) => self.screen.own = host,
            Field::Sender(host) => self.screen.sender = host,
            Field::Clock(clock) => self.screen.clock = clock,
            Field::Window(window) => self.screen.window = window,
        }
    }

    fn show(&self) -> String {
        let Screen {
            own,
            sender,
            clock,
            window,
        } = self.screen;
        let window = match window {
            None => "unstarted".to_string(),
            Some(Window {
                trail,
                lead,
                received,
            }) => format!("trail {trail} lead {lead} set {received}"),
        };
        let (output, rest) = self.buffer.split_at(self.accounted);
        let touched = rest.iter().any(|&byte| byte != FILL);
        let changed = if touched { " CHANGED" } else { "" };
        let output = Hex(output);
        format!("2 own {own} sender {sender} clock {clock} {window}; {output}{changed}")
    }
}

/// "`; lost`, then the numbers of the set, rising, each after a space, and then the span above the old lead as ` FROM..TO`".
fn lost(losses: Losses, trail: u16) -> String {
    if losses == Losses::NONE {
        return String::new();
    }
    let mut said = "; lost".to_string();
    for number in losses.in_set(trail) {
        said += &format!(" {number}");
    }
    if let Some((from, to)) = losses.span {
        said += &format!(" {from}..{to}");
    }
    said
}
