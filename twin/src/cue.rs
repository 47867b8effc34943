//! A cue's fields and their range test.

use crate::branches::{unless, Branch};

/// "A cue is 24 bytes": four offsets, the lamp power and 14 free bytes.
pub const CUE_LEN: usize = 24;

/// "from −2000 to 2000 motor steps".
const OFFSET_MAX: i16 = 2000;

/// "lamp power 0..1000".
const LAMP_MAX: u16 = 1000;

/// The bytes of a cue, in range or not.
#[derive(Clone, Copy, Debug, PartialEq, Eq, Hash)]
pub struct Cue(pub [u8; CUE_LEN]);

impl Cue {
    pub const ZERO: Cue = Cue([0; CUE_LEN]);

    /// A cue with this focus: "other cue bytes 0".
    pub fn with_focus(focus: i16) -> Cue {
        let mut cue = Cue::ZERO;
        cue.0[..2].copy_from_slice(&focus.to_be_bytes());
        cue
    }

    pub fn focus(&self) -> i16 {
        self.offset(0)
    }

    pub fn zoom(&self) -> i16 {
        self.offset(2)
    }

    pub fn sideways(&self) -> i16 {
        self.offset(4)
    }

    pub fn upright(&self) -> i16 {
        self.offset(6)
    }

    /// "lamp power 0..1000 (16 bits, unsigned)".
    pub fn lamp(&self) -> u16 {
        u16::from_be_bytes([self.0[8], self.0[9]])
    }

    /// "focus, zoom, sideways and upright offset, each a signed 16-bit two's
    /// complement number from −2000 to 2000 motor steps; lamp power 0..1000 (16 bits,
    /// unsigned); 14 free bytes."
    pub fn in_range(&self) -> bool {
        let near = |offset: i16| (-OFFSET_MAX..=OFFSET_MAX).contains(&offset);
        unless(near(self.focus()), Branch::CueFocus)
            && unless(near(self.zoom()), Branch::CueZoom)
            && unless(near(self.sideways()), Branch::CueSideways)
            && unless(near(self.upright()), Branch::CueUpright)
            && unless(self.lamp() <= LAMP_MAX, Branch::CueLamp)
    }

    /// "each a signed 16-bit two's complement number"; "Numbers are big-endian."
    fn offset(&self, at: usize) -> i16 {
        i16::from_be_bytes([self.0[at], self.0[at + 1]])
    }
}
