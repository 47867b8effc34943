//! The reader's verdict, the writer for DATA and the cue test, as safe functions over the proved library. panel/panel.h says what each
//! answers; the declarations here follow it.

use std::fmt;

/// The bytes of a cue.
pub const CUE_LENGTH: usize = 24;

/// The least bytes of an output.
pub const ROOM: usize = 128;

/// The bytes of a DATA.
pub const DATA_LENGTH: usize = 40;

/// Why a call was refused: the first question that was answered no. Its value is the question's number.
#[derive(Clone, Copy, Debug, PartialEq, Eq, Hash)]
#[repr(u8)]
pub enum Refusal {
    /// The output has fewer than 128 bytes.
    NoRoom = 1,
    /// An offset or the lamp of a cue is out of range, or it has not 24 bytes.
    BadCue = 6,
    /// There are 1 to 11 bytes, or the counts do not account for the length.
    BadLength = 8,
    /// It is no kind of message, or not with its counts.
    BadKind = 9,
    /// A host, cue number, cue field, stamp or held ticks is out of range.
    BadRange = 10,
    /// The kind does not allow these hosts, reports or echoes do not rise, or lead is not from trail to trail+63.
    BadHosts = 11,
}

impl Refusal {
    const ALL: [Refusal; 6] = [
        Refusal::NoRoom,
        Refusal::BadCue,
        Refusal::BadLength,
        Refusal::BadKind,
        Refusal::BadRange,
        Refusal::BadHosts,
    ];

    /// The number of the question.
    pub fn number(self) -> u8 {
        self as u8
    }

    /// The library answers no other number.
    fn numbered(number: u32) -> Refusal {
        let found = Refusal::ALL
            .into_iter()
            .find(|refusal| u32::from(refusal.number()) == number);
        found.expect("a number of panel.h")
    }
}

impl fmt::Display for Refusal {
    fn fmt(&self, f: &mut fmt::Formatter<'_>) -> fmt::Result {
        let words = match self {
            Refusal::NoRoom => "the output has fewer than 128 bytes",
            Refusal::BadCue => "an offset or the lamp is out of range, or these are not 24 bytes",
            Refusal::BadLength => {
                "fewer than 12 bytes, or the counts do not account for the length"
            }
            Refusal::BadKind => "no kind of message, or not with the counts of its kind",
            Refusal::BadRange => "a host, cue number, cue field, stamp or held ticks out of range",
            Refusal::BadHosts => {
                "hosts that the kind does not allow, reports or echoes that do not rise, or a lead not from trail to trail+63"
            }
        };
        write!(f, "refused {}: {words}", self.number())
    }
}

impl std::error::Error for Refusal {}

/// A datagram that is not refused.
#[derive(Clone, Copy, Debug, PartialEq, Eq, Hash)]
pub enum Datagram {
    /// No bytes.
    Probe,
    /// A message.
    Message,
}

/// The reader's verdict.
pub fn verdict(bytes: &[u8]) -> Result<Datagram, Refusal> {
    // SAFETY: a slice is a pointer to so many bytes that nobody writes while it is borrowed.
    match unsafe { declared::panel_verdict(bytes.as_ptr(), bytes.len()) } {
        0 if bytes.is_empty() => Ok(Datagram::Probe),
        0 => Ok(Datagram::Message),
        number => Err(Refusal::numbered(number)),
    }
}

/// The cue test.
pub fn cue_test(cue: &[u8]) -> Result<(), Refusal> {
    // SAFETY: as above.
    match unsafe { declared::panel_cue_test(cue.as_ptr(), cue.len()) } {
        0 => Ok(()),
        number => Err(Refusal::numbered(number)),
    }
}

/// Writes the DATA of a sender's own cue into the first bytes of `out`, and gives its length, 40. Refused, `out` is as it was.
pub fn write_data(
    sender: u64,
    number: u64,
    stamp: u64,
    cue: &[u8],
    out: &mut [u8],
) -> Result<usize, Refusal> {
    // SAFETY: as above; and `out` is borrowed for writing, so that it overlaps no other slice.
    let answer = unsafe {
        declared::panel_write_data(
            sender,
            number,
            stamp,
            cue.as_ptr(),
            cue.len(),
            out.as_mut_ptr(),
            out.len(),
        )
    };
    match answer as usize {
        DATA_LENGTH => Ok(DATA_LENGTH),
        _ => Err(Refusal::numbered(answer)),
    }
}

/// The functions of panel.h. Nothing checks these lines against the library but the tests.
mod declared {
    extern "C" {
        pub fn panel_verdict(bytes: *const u8, length: usize) -> u32;
        pub fn panel_cue_test(cue: *const u8, cue_length: usize) -> u32;
        pub fn panel_write_data(
            sender: u64,
            number: u64,
            stamp: u64,
            cue: *const u8,
            cue_length: usize,
            out: *mut u8,
            out_length: usize,
        ) -> u32;
    }
}
