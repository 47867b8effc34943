//! What a panel's software in C is answered. Document 02, P14: "The reader's verdict, the writer for DATA and the cue test are offered to a C
//! host as plain numbers and byte buffers."

use crate::cue::{Cue, CUE_LEN};
use crate::message::{self, ask, Message, Name};
use crate::{NUMBERS, OUTPUT_LEN};

/// "They return 0 [...] or the refusal's number"; "a probe is 0".
pub fn verdict(bytes: &[u8]) -> u32 {
    match message::read(bytes) {
        Ok(_) => 0,
        Err(number) => number.into(),
    }
}

/// "the cue test's being 6"; "a cue not of 24 bytes out of range".
pub fn cue_test(cue: &[u8]) -> u32 {
    match whole(cue) {
        Some(cue) if cue.in_range() => 0,
        _ => 6,
    }
}

/// "the writer 40, its length", "or the refusal's number".
pub fn write_data(sender: u64, number: u64, stamp: u64, cue: &[u8], out: &mut [u8]) -> u32 {
    match data(sender, number, stamp, cue, out) {
        Ok(length) => length as u32,
        Err(number) => number.into(),
    }
}

/// Question 1 comes first; what no message can hold is out of range, 10; the rest is the writer's to judge.
fn data(sender: u64, number: u64, stamp: u64, cue: &[u8], out: &mut [u8]) -> Result<usize, u8> {
    ask(out.len() >= OUTPUT_LEN, 1)?;
    let cue = whole(cue).ok_or(10)?;
    let sender = u8::try_from(sender).map_err(|_| 10)?;
    ask(number < NUMBERS.into(), 10)?;
    let name = Name {
        source: sender,
        number: number as u16,
        host: sender,
    };
    let message = Message {
        kind: message::DATA,
        sender,
        stamp,
        names: vec![name],
        cues: vec![cue],
        reports: vec![],
        echoes: vec![],
    };
    message::write(&message, out)
}

/// "A cue is 24 bytes".
fn whole(bytes: &[u8]) -> Option<Cue> {
    let bytes: [u8; CUE_LEN] = bytes.try_into().ok()?;
    Some(Cue(bytes))
}
