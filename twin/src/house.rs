//! The house: plays a script on two ends and prints what they answer.

use std::io::{self, BufRead, Read, Write};

use crate::cue::Cue;
use crate::end::{Answer, End, Event, Params};
use crate::text::{decimal, signed};
use crate::{DRAWS, OUTPUT_LEN};

/// "at most 64 messages, numbered from 0 as put out".
const MESSAGES: usize = 64;

/// The longest good line with its line feed is
/// `1 send 18446744073709551615 -32768`; of a longer one no more need be read.
const LINE: u64 = 35;

/// One good line.
struct Line {
    end: usize,
    clock: u64,
    event: Event,
}

/// Reads the script line by line, any number of lines, and prints each answer as
/// it comes. "At a malformed line, an unknown message number or a 65th message it
/// prints "bad" and stops"; what came before stays printed.
pub fn play(script: impl BufRead, print: impl Write) -> io::Result<()> {
    lines(script, print, false)
}

/// The program `why`: house's lines, with the reason's words after each `ignored`.
pub fn explain(script: impl BufRead, print: impl Write) -> io::Result<()> {
    lines(script, print, true)
}

fn lines(mut script: impl BufRead, mut print: impl Write, explained: bool) -> io::Result<()> {
    // "the ends are hosts 0 and 1", "parameters 9,8,4,4,4,8"
    let mut ends = [0, 1].map(|host| End::open(host, Params::STANDARD).1);
    let mut messages: Vec<Vec<u8>> = Vec::new();
    let mut line = Vec::new();
    loop {
        line.clear();
        script
            .by_ref()
            .take(LINE + 1)
            .read_until(b'\n', &mut line)?;
        if line.is_empty() {
            return Ok(());
        }
        let Some(Line { end, clock, event }) = parse(&line, &messages) else {
            return writeln!(print, "bad");
        };
        let why = ends[end].why(&event, clock);
        let mut out = [0; OUTPUT_LEN];
        let answer = match ends[end].event(&event, clock, &[0; DRAWS], &mut out) {
            Answer::Out(_) if messages.len() == MESSAGES => return writeln!(print, "bad"),
            Answer::Out(length) => {
                messages.push(out[..length].to_vec());
                format!("out {}", messages.len() - 1)
            }
            Answer::Got { source, number } => {
                let focus = i16::from_be_bytes([out[0], out[1]]);
                format!("got {source} {number} {focus}")
            }
            // No run of house's has it: its network invents nothing.
            Answer::Clash { source, number } => format!("clash {source} {number}"),
            // Nor these: its verbs are document 01's nine, and no kind 22 or 23 comes about.
            Answer::Late { source, number } => format!("late {source} {number}"),
            Answer::Exhausted => "exhausted".to_string(),
            Answer::Refused(question) => format!("refused {question}"),
            Answer::Done => "done".to_string(),
            Answer::Ignored if explained => format!("ignored: {why}"),
            Answer::Ignored => "ignored".to_string(),
            Answer::Nothing => "nothing".to_string(),
        };
        writeln!(print, "{end} {clock} {answer}")?;
    }
}

/// "end, verb, clock, then focus or message number"; "one space between words, a
/// line feed after each line".
fn parse(line: &[u8], messages: &[Vec<u8>]) -> Option<Line> {
    let line = std::str::from_utf8(line).ok()?.strip_suffix('\n')?;
    // Two spaces, or one at either end, make an empty word, which no place takes.
    let words: Vec<&str> = line.split(' ').collect();
    let (end, verb, clock, argument) = match words[..] {
        [end, verb, clock] => (end, verb, clock, None),
        [end, verb, clock, argument] => (end, verb, clock, Some(argument)),
        _ => return None,
    };
    let event = match (verb, argument) {
        ("join", None) => Event::Join,
        ("joined", None) => Event::Joined,
        ("leave", None) => Event::Leave,
        ("left", None) => Event::Left,
        ("crash", None) => Event::Crash,
        ("fire", None) => Event::Fire,
        ("report", None) => Event::Report,
        ("send", Some(focus)) => Event::Send(Cue::with_focus(signed(focus)?)),
        ("hear", Some(number)) => {
            let place = usize::try_from(decimal(number)?).ok()?;
            Event::Arrival(messages.get(place)?.clone())
        }
        _ => return None,
    };
    let end = match end {
        "0" => 0,
        "1" => 1,
        _ => return None,
    };
    Some(Line {
        end,
        clock: decimal(clock)?,
        event,
    })
}
