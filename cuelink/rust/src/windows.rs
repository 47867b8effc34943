//! Lens windows: motors may move only in agreed windows of the year.
//!
//! ```
//! use cuelink::windows::{find, roll, Date, Moment, Window};
//! let window = Window {
//!     first: Date { year: 2024, month: 2, day: 27 },
//!     last: Date { year: 2024, month: 3, day: 1 },
//!     start: 600,
//!     end: 660,
//! };
//! let after = Moment { date: Date { year: 2024, month: 2, day: 28 }, minute: 660 };
//! let leap = Date { year: 2024, month: 2, day: 29 };
//! assert_eq!(find(&[window], after)?, Some(Moment { date: leap, minute: 600 }));
//! assert_eq!(roll(leap)?, Date { year: 2024, month: 3, day: 1 });
//! # Ok::<(), cuelink::Refusal>(())
//! ```

use crate::{declared, Refusal};

/// A list has at most so many windows.
pub const MOST: usize = 32;

/// The numbers of a window in the list that the library takes.
const WINDOW: usize = 8;

/// A date; it need not exist.
#[derive(Clone, Copy, Debug, PartialEq, Eq, PartialOrd, Ord, Hash)]
#[allow(missing_docs)]
pub struct Date {
    pub year: u16,
    pub month: u8,
    pub day: u8,
}

impl Date {
    /// The calendar's first day.
    pub const FIRST: Date = Date {
        year: 2000,
        month: 1,
        day: 1,
    };

    /// The calendar's last day.
    pub const LAST: Date = Date {
        year: 2099,
        month: 12,
        day: 31,
    };

    fn numbers(self) -> [u64; 3] {
        [self.year.into(), self.month.into(), self.day.into()]
    }
}

/// A minute of a day, 0 to 1439.
#[derive(Clone, Copy, Debug, PartialEq, Eq, PartialOrd, Ord, Hash)]
#[allow(missing_docs)]
pub struct Moment {
    pub date: Date,
    pub minute: u16,
}

/// A span of dates, both included, and a span of minutes of each of these days, the start included and the end, at most 1440, excluded.
#[derive(Clone, Copy, Debug, PartialEq, Eq, Hash)]
#[allow(missing_docs)]
pub struct Window {
    pub first: Date,
    pub last: Date,
    pub start: u16,
    pub end: u16,
}

/// The earliest minute, not before the given one, that lies in a window; `None` where there is none up to the end of 2099.
///
/// Refused as [`BadDate`](Refusal::BadDate) where the list has more than [`MOST`] windows, or a date, minute or window does not exist.
pub fn find(windows: &[Window], from: Moment) -> Result<Option<Moment>, Refusal> {
    // One window more than a list may have is enough to have a longer one refused.
    let mut numbers = [0; (MOST + 1) * WINDOW];
    let taken = &windows[..windows.len().min(MOST + 1)];
    for (to, window) in numbers.chunks_exact_mut(WINDOW).zip(taken) {
        to[..3].copy_from_slice(&window.first.numbers());
        to[3..6].copy_from_slice(&window.last.numbers());
        to[6] = window.start.into();
        to[7] = window.end.into();
    }
    let [year, month, day] = from.date.numbers();
    // SAFETY: the pointer leads to so many numbers, which are only read.
    let answer = unsafe {
        let length = taken.len() * WINDOW;
        declared::cuelink_windows_find(
            numbers.as_ptr(),
            length,
            year,
            month,
            day,
            from.minute.into(),
        )
    };
    match answer >> 32 {
        0 => Err(Refusal::numbered(answer)),
        5 => Ok(None),
        _ => Ok(Some(moment(answer))),
    }
}

/// The day after a date; the last day stays.
///
/// Refused as [`BadDate`](Refusal::BadDate) where the date does not exist.
pub fn roll(date: Date) -> Result<Date, Refusal> {
    let [year, month, day] = date.numbers();
    // SAFETY: plain numbers.
    let answer = unsafe { declared::cuelink_date_roll(year, month, day) };
    match answer >> 32 {
        0 => Err(Refusal::numbered(answer)),
        _ => Ok(moment(answer).date),
    }
}

/// An answer taken apart: year × 2^20 + month × 2^16 + day × 2^11 + minute.
fn moment(answer: u64) -> Moment {
    let date = Date {
        year: (answer >> 20 & 0xFFF) as u16,
        month: (answer >> 16 & 0xF) as u8,
        day: (answer >> 11 & 0x1F) as u8,
    };
    Moment {
        date,
        minute: (answer & 0x7FF) as u16,
    }
}
