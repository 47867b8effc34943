//! The cue link of cinema lamp controllers, as safe types over the proved library `libcuelink.a`: an [`End`] of the link, a foyer [`Display`], and
//! lens [`windows`]. `cuelink/cuelink.h` says what each call answers and docs/INTEGRATION.md when to make which; the names here are the same.
//!
//! What these types do for a host:
//!
//! - **Only the state that the last call left can be used again.** An [`End`] changes in place and cannot be cloned. Its bytes can be looked at and
//!   stored ([`End::as_bytes`]); whoever reads stored ones back ([`End::from_bytes`]) says by that that they are the last.
//! - A call cannot be refused as 1, 2 or 3: the output and the draws have their lengths by their types, and an [`End`] is always a sound state.
//! - A message that is to be sent and a cue that is handed out are copied out of the call, so that nothing stays borrowed.
//!
//! Calls allocate nothing (opening an end does, once), and any number of threads may make them, each on an end of its own. A call needs 576 KiB of
//! stack, which Rust's own threads have.
//!
//! Two controllers, one cue:
//!
//! ```
//! use cuelink::{Answer, Cue, End, Name, Params};
//!
//! let draws = [0; 64]; // a host takes new random numbers for each call
//! let mut sender = End::open(0, &Params::HOUSE)?;
//! let mut listener = End::open(1, &Params::HOUSE)?;
//! for end in [&mut sender, &mut listener] {
//!     assert_eq!(end.join(0, &draws)?, Answer::Done);
//!     assert_eq!(end.joined(0, &draws)?, Answer::Done);
//! }
//! let cue = Cue::new(-2, 0, 0, 0, 500);
//! let Answer::Out(message) = sender.send(10, &draws, &cue)? else { panic!("not sent") };
//! // Here a host stores sender.clock() and sender.next(), and then sends the message's bytes to the group.
//! let got = listener.arrival(12, &draws, &message)?;
//! assert_eq!(got, Answer::Got(Name { source: 0, number: 0 }, cue));
//! # Ok::<(), cuelink::Refusal>(())
//! ```
#![warn(missing_docs)]

use std::fmt;
use std::ops::Deref;
use std::time::Duration;

mod declared;
mod display;
mod end;
pub mod windows;

pub use display::{Display, Heard, Lost, DISPLAY_SIZE};
pub use end::{Draws, End, Event, Params, SIZE};

/// The bytes of a cue.
pub const CUE: usize = 24;

/// The least bytes of a receive buffer: one more than the longest message, so that a datagram that is too long shows.
pub const RECEIVE: usize = 128;

/// The highest clock, 2^48-1 ticks.
pub const CLOCK_MAX: u64 = (1 << 48) - 1;

/// A tick.
pub const TICK: Duration = Duration::from_micros(250);

/// The least bytes of an output; the longest message has one less.
const ROOM: usize = 128;

/// "There is no such value": looks and due times.
const NONE: u64 = u64::MAX;

/// The whole ticks in a time.
///
/// ```
/// use std::time::Duration;
/// assert_eq!(cuelink::ticks(Duration::from_millis(40)), 160);
/// assert_eq!(cuelink::ticks(Duration::from_micros(499)), 1);
/// ```
pub fn ticks(time: Duration) -> u64 {
    u64::try_from(time.as_micros() / TICK.as_micros()).unwrap_or(u64::MAX)
}

/// The name of a cue: its source, 0 to 7, and its number there.
#[derive(Clone, Copy, Debug, PartialEq, Eq, PartialOrd, Ord, Hash)]
pub struct Name {
    /// The controller that sent it first.
    pub source: u8,
    /// Its number among that controller's cues.
    pub number: u16,
}

/// The 24 bytes of a cue: focus, zoom, sideways and upright offset, lamp power, 14 free bytes. Any bytes can stand here; a cue that is out of range is
/// refused where it is sent.
///
/// ```
/// let cue = cuelink::Cue::new(-2, 0, 0, 2000, 1000);
/// assert_eq!(cue.0[..2], [0xFF, 0xFE]);
/// assert_eq!((cue.focus(), cue.upright(), cue.lamp()), (-2, 2000, 1000));
/// ```
#[derive(Clone, Copy, Debug, PartialEq, Eq, Hash)]
pub struct Cue(pub [u8; CUE]);

impl Cue {
    /// A cue of these fields, its free bytes 0: offsets are -2000 to 2000 motor steps, the lamp 0 to 1000.
    pub fn new(focus: i16, zoom: i16, sideways: i16, upright: i16, lamp: u16) -> Cue {
        let mut bytes = [0; CUE];
        for (at, offset) in [focus, zoom, sideways, upright].into_iter().enumerate() {
            bytes[2 * at..2 * at + 2].copy_from_slice(&offset.to_be_bytes());
        }
        bytes[8..10].copy_from_slice(&lamp.to_be_bytes());
        Cue(bytes)
    }

    /// The focus, in motor steps.
    pub fn focus(&self) -> i16 {
        self.offset(0)
    }

    /// The zoom, in motor steps.
    pub fn zoom(&self) -> i16 {
        self.offset(2)
    }

    /// The sideways offset, in motor steps.
    pub fn sideways(&self) -> i16 {
        self.offset(4)
    }

    /// The upright offset, in motor steps.
    pub fn upright(&self) -> i16 {
        self.offset(6)
    }

    /// The lamp power.
    pub fn lamp(&self) -> u16 {
        u16::from_be_bytes([self.0[8], self.0[9]])
    }

    fn offset(&self, at: usize) -> i16 {
        i16::from_be_bytes([self.0[at], self.0[at + 1]])
    }
}

/// A message that is to be sent to the whole group as one datagram: its bytes, by `&message[..]`.
#[derive(Clone, Copy)]
pub struct Message {
    bytes: [u8; ROOM],
    length: usize,
}

impl Deref for Message {
    type Target = [u8];

    fn deref(&self) -> &[u8] {
        &self.bytes[..self.length]
    }
}

impl AsRef<[u8]> for Message {
    fn as_ref(&self) -> &[u8] {
        self
    }
}

impl PartialEq for Message {
    fn eq(&self, other: &Message) -> bool {
        self[..] == other[..]
    }
}

impl Eq for Message {}

impl fmt::Debug for Message {
    fn fmt(&self, f: &mut fmt::Formatter<'_>) -> fmt::Result {
        f.write_str("Message(")?;
        self.iter().try_for_each(|byte| write!(f, "{byte:02X}"))?;
        f.write_str(")")
    }
}

/// What a call answers that is not refused.
#[derive(Clone, Copy, Debug, PartialEq, Eq)]
pub enum Answer {
    /// A message is to be sent to the whole group.
    Out(Message),
    /// A cue is handed out, once since joining.
    Got(Name, Cue),
    /// The event did what it does, and there is nothing to hand out.
    Done,
    /// Nothing but the clock was changed (on a crashed end not even that); [`End::reason`], asked before, says why.
    Ignored,
    /// Fire: nothing is due. Announce: nothing was sent since joining.
    Nothing,
    /// A held cue came with other bytes. The held one stays; tell the staff.
    Clash(Name),
    /// A cue that was fetched is handed out, once since joining.
    Late(Name, Cue),
    /// Fetch: nobody is left to ask for this number now.
    Exhausted,
}

impl Answer {
    /// The message, where there is one to send.
    ///
    /// ```
    /// # let mut end = cuelink::End::open(0, &cuelink::Params::HOUSE)?;
    /// # let (clock, draws) = (0, [0; 64]);
    /// while let Some(message) = end.fire(clock, &draws)?.message() {
    ///     // socket.send_to(message, group)
    /// }
    /// # Ok::<(), cuelink::Refusal>(())
    /// ```
    pub fn message(&self) -> Option<&[u8]> {
        match self {
            Answer::Out(message) => Some(message),
            _ => None,
        }
    }

    /// An answer of the library, with what the call left in the output.
    fn numbered(answer: u64, out: &[u8; ROOM]) -> Result<Answer, Refusal> {
        let name = Name {
            source: (answer >> 16) as u8,
            number: answer as u16,
        };
        let cue = || Cue(out[..CUE].try_into().expect("24 bytes"));
        Ok(match answer >> 32 {
            0 => return Err(Refusal::numbered(answer)),
            1 => Answer::Out(Message {
                bytes: *out,
                length: usize::from(answer as u16),
            }),
            2 => Answer::Got(name, cue()),
            3 => Answer::Done,
            4 => Answer::Ignored,
            5 => Answer::Nothing,
            6 => Answer::Clash(name),
            7 => Answer::Late(name, cue()),
            8 => Answer::Exhausted,
            kind => unreachable!("no kind of cuelink.h: {kind}"),
        })
    }
}

/// Enums whose cases have the header's numbers and words of their own.
macro_rules! numbered {
    ($(#[$outer:meta])* $name:ident { $($(#[$inner:meta])* $case:ident = $number:literal $words:literal,)* }) => {
        $(#[$outer])*
        #[derive(Clone, Copy, Debug, PartialEq, Eq, Hash)]
        #[repr(u8)]
        pub enum $name {
            $($(#[$inner])* #[doc = concat!("Number ", $number, ": ", $words, ".")] $case = $number,)*
        }

        impl $name {
            /// All of them, in the order of their numbers.
            pub const ALL: &'static [$name] = &[$($name::$case),*];

            /// The number, as document 01 and the header have it.
            pub fn number(self) -> u8 {
                self as u8
            }

            fn words(self) -> &'static str {
                match self {
                    $($name::$case => $words,)*
                }
            }

            /// The library answers no other number.
            fn numbered(number: u64) -> $name {
                let found = $name::ALL.iter().find(|case| u64::from(case.number()) == number);
                *found.unwrap_or_else(|| unreachable!("no number of cuelink.h: {number}"))
            }
        }
    };
}

numbered! {
    /// Why a call was refused: the first question, in the order of their numbers, that was answered no. A refused call changes nothing.
    Refusal {
        /// Does not come from these types.
        NoRoom = 1 "the output has fewer than 128 bytes",
        /// Does not come from these types.
        BadDraws = 2 "there are not 64 draws",
        /// From [`End::from_bytes`] and [`Display::from_bytes`] alone.
        NotSound = 3 "the bytes are not those of a sound state",
        ClockHigh = 4 "the clock is above 2^48-1",
        ClockBack = 5 "the clock is below the state's",
        BadCue = 6 "an offset is not in -2000..2000, or the lamp is above 1000",
        NoNumbers = 7 "this host has sent its 65,536 cues, or is to be reopened beyond them",
        BadLength = 8 "fewer than 12 bytes, or counts that do not account for the length",
        BadKind = 9 "no kind of message, or not with the counts of its kind",
        BadRange = 10 "a host, cue number, cue field, stamp or held ticks out of range",
        BadHosts = 11 "hosts that the kind does not allow, reports or echoes that do not rise, or a lead not from trail to trail+63",
        BadHost = 12 "a host above 7, or a display of its own sender",
        BadParams = 13 "a parameter above 32, or not C3 < C1, D1+D2+8 < 2*C1 and D1+D2+D3 < 2*C1",
        BadExpress = 14 "E is above 1000",
        BadDate = 15 "a list of windows too long, or a date, minute or window that does not exist",
    }
}

impl fmt::Display for Refusal {
    fn fmt(&self, f: &mut fmt::Formatter<'_>) -> fmt::Result {
        write!(f, "refused {}: {}", self.number(), self.words())
    }
}

impl std::error::Error for Refusal {}

numbered! {
    /// Why an event would be ignored: the first of these that holds.
    Reason {
        Crashed = 1 "crashed",
        WrongStatus = 2 "wrong status",
        OwnMessage = 3 "own message",
        NotOpen = 4 "source not open",
        BelowFirst = 5 "below first",
        OwnAboveLast = 6 "own number above last",
        AlreadyHeld = 7 "already held",
        ReplyWaiting = 8 "reply waiting",
        ReplyQuiet = 9 "reply-quiet",
        RequestQuiet = 10 "request quiet",
        NoFetch = 11 "no fetch",
    }
}

impl fmt::Display for Reason {
    fn fmt(&self, f: &mut fmt::Formatter<'_>) -> fmt::Result {
        f.write_str(self.words())
    }
}

numbered! {
    /// The status of an end's membership.
    Status {
        Idle = 0 "idle",
        Joining = 1 "joining",
        Member = 2 "member",
        Leaving = 3 "leaving",
        /// Never reopen such an end.
        Crashed = 4 "crashed, for good",
    }
}

impl fmt::Display for Status {
    fn fmt(&self, f: &mut fmt::Formatter<'_>) -> fmt::Result {
        f.write_str(self.words())
    }
}

/// What an opening answers.
fn opened(answer: u64) -> Result<(), Refusal> {
    match answer {
        0 => Ok(()),
        number => Err(Refusal::numbered(number)),
    }
}

/// A value that a look answers.
fn there(answer: u64) -> Option<u64> {
    (answer != NONE).then_some(answer)
}
