//! A foyer display.

use std::fmt;
use std::ops::RangeInclusive;

use crate::declared::{self, Look};
use crate::{opened, there, Answer, Message, Refusal, CLOCK_MAX, ROOM};

/// The bytes of a display.
pub const DISPLAY_SIZE: usize = 25;

/// A foyer display, which follows one controller and sends no cues. docs/DISPLAYS.md has its rules. As an [`End`](crate::End) it is always sound, changes
/// in place and cannot be cloned.
///
/// ```
/// use cuelink::{Answer, Cue, Display, End, Params};
/// let draws = [0; 64];
/// let mut sender = End::open(1, &Params::HOUSE)?;
/// sender.join(0, &draws)?;
/// sender.joined(0, &draws)?;
/// let mut messages = Vec::new();
/// for clock in 1..=3 {
///     messages.push(sender.send(clock, &draws, &Cue::new(clock as i16, 0, 0, 0, 0))?);
/// }
///
/// let mut screen = Display::open(7, 1)?;
/// for answer in [messages[0], messages[2]] {
///     let heard = screen.hear(10, answer.message().unwrap())?;
///     assert!(matches!(heard.answer, Answer::Got(..)) && heard.lost.is_empty());
/// }
/// let request = screen.step(20)?.expect("number 1 is missing");
/// assert_eq!(sender.arrival(21, &draws, &request)?, Answer::Done);
/// # Ok::<(), cuelink::Refusal>(())
/// ```
pub struct Display {
    bytes: [u8; DISPLAY_SIZE],
}

/// What a datagram was to a display.
#[derive(Clone, Debug, PartialEq, Eq)]
pub struct Heard {
    /// [`Got`](Answer::Got), [`Done`](Answer::Done) or [`Ignored`](Answer::Ignored).
    pub answer: Answer,
    /// The numbers that this call lost. Each is told once.
    pub lost: Lost,
}

/// Numbers that will never be handed out, since the sender no longer offers them.
#[derive(Clone, Debug, PartialEq, Eq)]
pub struct Lost {
    /// From which number the set counts; it says something only where the set is not 0.
    pub from: u16,
    /// Bit i says that number `from` + i is lost.
    pub set: u64,
    /// The lost numbers above those.
    pub above: Option<RangeInclusive<u16>>,
}

impl Lost {
    /// Whether nothing was lost.
    pub fn is_empty(&self) -> bool {
        self.set == 0 && self.above.is_none()
    }

    /// All of them, rising.
    pub fn numbers(&self) -> impl Iterator<Item = u16> + '_ {
        let set = (0..64).filter(|i| self.set >> i & 1 == 1);
        set.map(|i| self.from + i)
            .chain(self.above.iter().flat_map(|span| span.clone()))
    }
}

impl Display {
    /// Opens a display of host `own` that follows the controller `sender`: two different hosts below 8, else refused as
    /// [`BadHost`](Refusal::BadHost).
    pub fn open(own: u8, sender: u8) -> Result<Display, Refusal> {
        let mut bytes = [0; DISPLAY_SIZE];
        // SAFETY: the pointer leads to so many bytes, which nobody else uses.
        let answer = unsafe {
            declared::cuelink_display_open(
                own.into(),
                sender.into(),
                bytes.as_mut_ptr(),
                bytes.len(),
            )
        };
        opened(answer)?;
        Ok(Display { bytes })
    }

    /// The display of which these are the bytes, as [`as_bytes`](Display::as_bytes) gave them: those that the last call left.
    ///
    /// Refused as [`NotSound`](Refusal::NotSound) where they are not those of a sound display.
    pub fn from_bytes(bytes: &[u8]) -> Result<Display, Refusal> {
        let mut display = Display {
            bytes: bytes.try_into().map_err(|_| Refusal::NotSound)?,
        };
        // A step of a copy, at a clock that no other question refuses.
        display.step(CLOCK_MAX)?;
        display.bytes.copy_from_slice(bytes);
        Ok(display)
    }

    /// The display's bytes, to be stored.
    pub fn as_bytes(&self) -> &[u8; DISPLAY_SIZE] {
        &self.bytes
    }

    /// Takes a datagram, whatever is in it; see [`End::arrival`](crate::End::arrival) on its length.
    ///
    /// Refused as [`ClockHigh`](Refusal::ClockHigh), [`ClockBack`](Refusal::ClockBack), or as the reader refuses it.
    pub fn hear(&mut self, clock: u64, bytes: &[u8]) -> Result<Heard, Refusal> {
        let mut out = [0; ROOM];
        let mut lost = [0; 4];
        // SAFETY: each pointer leads to so many elements; those that are written are borrowed for it, so they overlap nothing.
        let answer = unsafe {
            declared::cuelink_display_hear(
                self.bytes.as_mut_ptr(),
                self.bytes.len(),
                clock,
                bytes.as_ptr(),
                bytes.len(),
                lost.as_mut_ptr(),
                lost.len(),
                out.as_mut_ptr(),
                out.len(),
            )
        };
        let answer = Answer::numbered(answer, &out)?;
        let above = there(lost[2]).map(|first| first as u16..=lost[3] as u16);
        let lost = Lost {
            from: lost[0] as u16,
            set: lost[1],
            above,
        };
        Ok(Heard { answer, lost })
    }

    /// The request for the lowest number that is missing, to be sent to the whole group; `None` where nothing is missing. Not at every tick: every 100 to
    /// 200 ms is a good start.
    ///
    /// Refused as [`ClockHigh`](Refusal::ClockHigh) or [`ClockBack`](Refusal::ClockBack).
    pub fn step(&mut self, clock: u64) -> Result<Option<Message>, Refusal> {
        let mut out = [0; ROOM];
        let (display, len) = (self.bytes.as_mut_ptr(), self.bytes.len());
        // SAFETY: as above.
        let answer = unsafe {
            declared::cuelink_display_step(display, len, clock, out.as_mut_ptr(), out.len())
        };
        Ok(match Answer::numbered(answer, &out)? {
            Answer::Out(message) => Some(message),
            _ => None,
        })
    }

    /// Its own host number.
    pub fn own(&self) -> u8 {
        self.value(declared::cuelink_display_own) as u8
    }

    /// The controller that it follows.
    pub fn sender(&self) -> u8 {
        self.value(declared::cuelink_display_sender) as u8
    }

    /// The clock of the last call that was not refused.
    pub fn clock(&self) -> u64 {
        self.value(declared::cuelink_display_clock)
    }

    /// The oldest number that it heard its sender offer; `None` before its first cue.
    pub fn trail(&self) -> Option<u16> {
        self.look(declared::cuelink_display_trail).map(|n| n as u16)
    }

    /// The highest number that it heard of; `None` before its first cue.
    pub fn lead(&self) -> Option<u16> {
        self.look(declared::cuelink_display_lead).map(|n| n as u16)
    }

    fn look(&self, look: Look) -> Option<u64> {
        // SAFETY: the pointer leads to so many bytes, which are only read.
        there(unsafe { look(self.bytes.as_ptr(), self.bytes.len()) })
    }

    fn value(&self, look: Look) -> u64 {
        self.look(look).expect("a display is one")
    }
}

impl PartialEq for Display {
    fn eq(&self, other: &Display) -> bool {
        self.bytes == other.bytes
    }
}

impl Eq for Display {}

impl fmt::Debug for Display {
    fn fmt(&self, f: &mut fmt::Formatter<'_>) -> fmt::Result {
        let mut shown = f.debug_struct("Display");
        shown
            .field("own", &self.own())
            .field("sender", &self.sender());
        shown
            .field("clock", &self.clock())
            .field("trail", &self.trail());
        shown.field("lead", &self.lead()).finish_non_exhaustive()
    }
}
