//! A twin of the cue link: document 01, with the requests of document 02 that have
//! landed, read a second time and written down as plain Rust, so that another implementation can be compared with it call by
//! call. It favours being easy to hold against the document over being fast.
//!
//! A host number is a plain `u8` here and a cue number a plain `u16`, because a state must be
//! able to hold any value; they are kept apart by name, and "host number and cue number are
//! never added or compared".

pub mod book;
pub mod branches;
pub mod cue;
pub mod digest;
pub mod end;
pub mod foyer;
pub mod house;
pub mod judge;
pub mod message;
pub mod panel;
pub mod picture;
pub mod random;
pub mod reason;
pub mod recovery;
pub mod replay;
pub mod screen;
pub mod text;
pub mod trace;
pub mod waiting;
pub mod windows;

/// "Hosts are 0..7".
pub const HOSTS: u8 = 8;

/// Document 02, P7: "Cue numbers become 0..65535": so many there are.
pub const NUMBERS: u32 = 65_536;

/// P7: "An end keeps the latest 64 numbers of each source": so many places it has for them.
pub const PLACES: u8 = 64;

/// "Clocks are 0..2^48−1 ticks"; stamps and held ticks have the same bound.
pub const CLOCK_MAX: u64 = (1 << 48) - 1;

/// "Has the output at least 128 bytes?"
pub const OUTPUT_LEN: usize = 128;

/// "Are there 64 draws", by document 02, P1, "64 numbers of 16 bits".
pub const DRAWS: usize = 64;

/// A draw: one of the "numbers of 16 bits".
pub type Draw = u16;
