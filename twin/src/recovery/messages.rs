//! Messages made up for a run: of strangers, and of members in the run's beginning.

use super::Time;
use crate::cue::Cue;
use crate::message::{put_together, Echo, Message, Name, Report, DATA, REPL, SESS};

/// A message with empty sections.
fn blank(kind: u8, sender: u8) -> Message {
    Message {
        kind,
        sender,
        stamp: 0,
        names: vec![],
        cues: vec![],
        reports: vec![],
        echoes: vec![],
    }
}

/// The cue of a number: each has its own.
pub fn cue(number: u16) -> Cue {
    Cue::with_focus(number as i16)
}

/// A message of one name, with its cue where the kind has one.
pub fn about(kind: u8, sender: u8, source: u8, number: u16, host: u8) -> Vec<u8> {
    let cues = match kind {
        REPL | DATA => vec![cue(number)],
        _ => vec![],
    };
    let name = Name {
        source,
        number,
        host,
    };
    put_together(&Message {
        names: vec![name],
        cues,
        ..blank(kind, sender)
    })
}

/// A session message that reports a last number of the source.
pub fn reporting(sender: u8, source: u8, last: u16) -> Vec<u8> {
    put_together(&Message {
        reports: vec![Report { source, last }],
        ..blank(SESS, sender)
    })
}

/// A session message by whose echo the hearer, at this clock, has a distance of so many milliseconds to the sender: e is 8 times that. Its
/// stamp makes the sender's distance, once the hearer echoes it, as much and the way.
pub fn measuring(sender: (u8, Time), hearer: (u8, Time), distance: u64) -> Vec<u8> {
    let ago = |clock: Time| clock as u64 - 8 * distance;
    let echo = Echo {
        host: hearer.0,
        stamp: ago(hearer.1),
        held: 0,
    };
    put_together(&Message {
        stamp: ago(sender.1),
        echoes: vec![echo],
        ..blank(SESS, sender.0)
    })
}
