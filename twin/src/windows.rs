//! Lens windows: document 02, P10, by the plainest search there is, day after day and within a day minute after minute; and the program `windows`
//! over it.

use std::fmt;
use std::io::{self, BufRead, Read, Write};
use std::sync::OnceLock;

pub use crate::random::windows::random_lines;
use crate::text::decimal;

/// "A list has at most 32 window records".
const RECORDS: usize = 32;

/// "a span of minutes of the day, start included, end excluded and at most 1440".
pub const DAY: u16 = 1440;

/// "is refused as 15".
const REFUSED: u8 = 15;

/// The longest good line with its line feed is `window 2000-01-01 2000-01-01 65535 65535`; of a longer one no more need be read.
const LINE: u64 = 41;

/// A date as it is written; it need not exist. Dates are ordered by year, then month, then day.
#[derive(Clone, Copy, Debug, PartialEq, Eq, PartialOrd, Ord)]
pub struct Date {
    pub year: u16,
    pub month: u8,
    pub day: u8,
}

impl Date {
    /// "The calendar's first and last day belong to the date itself as named constants."
    pub const FIRST: Date = Date { year: 2000, month: 1, day: 1 };
    pub const LAST: Date = Date { year: 2099, month: 12, day: 31 };

    /// The place in the calendar, for a date that exists.
    pub fn place(self) -> Option<usize> {
        calendar().binary_search(&self).ok()
    }

    /// "The date is rolled forward one day, across month ends and 29 February; the last day stays."
    pub fn rolled(self) -> Result<Date, u8> {
        let place = self.place().ok_or(REFUSED)?;
        Ok(*calendar().get(place + 1).unwrap_or(&Date::LAST))
    }
}

impl fmt::Display for Date {
    fn fmt(&self, f: &mut fmt::Formatter<'_>) -> fmt::Result {
        write!(f, "{:04}-{:02}-{:02}", self.year, self.month, self.day)
    }
}

/// "over the years 2000 to 2099 of the Gregorian calendar": all their days, in order.
pub fn calendar() -> &'static [Date] {
    static DAYS: OnceLock<Vec<Date>> = OnceLock::new();
    DAYS.get_or_init(|| {
        let months = (2000..=2099).flat_map(|year| (1..=12).map(move |month| (year, month)));
        let days = months.flat_map(|(year, month)| (1..=length(year, month)).map(move |day| Date { year, month, day }));
        days.collect()
    })
}

fn length(year: u16, month: u8) -> u8 {
    let by_four = year.is_multiple_of(4);
    let by_hundred = year.is_multiple_of(100);
    let by_four_hundred = year.is_multiple_of(400);
    match month {
        4 | 6 | 9 | 11 => 30,
        2 if by_four && (!by_hundred || by_four_hundred) => 29,
        2 => 28,
        _ => 31,
    }
}

/// A minute of a day, as it is written. Moments are ordered by date, then minute.
#[derive(Clone, Copy, Debug, PartialEq, Eq, PartialOrd, Ord)]
pub struct Moment {
    pub date: Date,
    pub minute: u16,
}

impl Moment {
    fn exists(self) -> bool {
        self.date.place().is_some() && self.minute < DAY
    }
}

/// "A window is a span of dates, both included, and a span of minutes of the day, start included, end excluded and at most 1440."
#[derive(Clone, Copy, Debug)]
pub struct Window {
    pub first: Date,
    pub last: Date,
    pub start: u16,
    pub end: u16,
}

impl Window {
    /// "a date, minute or window that doesn't exist, an empty minute span or a date span that ends before it starts among them".
    fn exists(&self) -> bool {
        let dates = self.first.place().is_some() && self.last.place().is_some();
        dates && self.first <= self.last && self.start < self.end && self.end <= DAY
    }

    fn has_day(&self, date: Date) -> bool {
        self.first <= date && date <= self.last
    }

    fn has(&self, moment: Moment) -> bool {
        self.has_day(moment.date) && self.start <= moment.minute && moment.minute < self.end
    }
}

/// "A call finds the earliest minute, not before a given one, that lies in a window; "none" means that there is none up to the end of 2099."
pub fn find(list: &[Window], given: Moment) -> Result<Option<Moment>, u8> {
    // "A list too long, or a date, minute or window that doesn't exist [...] is refused as 15 before any search."
    if list.len() > RECORDS || !given.exists() || !list.iter().all(Window::exists) {
        return Err(REFUSED);
    }
    // The minutes of a day that is in no window are passed over together.
    let days = calendar().iter().filter(|&&date| date >= given.date && list.iter().any(|window| window.has_day(date)));
    let mut moments = days.flat_map(|&date| (0..DAY).map(move |minute| Moment { date, minute }));
    Ok(moments.find(|&moment| moment >= given && list.iter().any(|window| window.has(moment))))
}

/// One good line.
enum Line {
    Window(Window),
    Clear,
    Next(Moment),
    Roll(Date),
}

/// Reads lines, any number of them, and prints each answer as it comes. At a malformed line it prints `bad` and stops; what came before stays printed.
pub fn play(mut script: impl BufRead, mut print: impl Write) -> io::Result<()> {
    let mut list = Vec::new();
    let mut line = Vec::new();
    loop {
        line.clear();
        script.by_ref().take(LINE + 1).read_until(b'\n', &mut line)?;
        if line.is_empty() {
            return Ok(());
        }
        let answer = match parse(&line) {
            None => return writeln!(print, "bad"),
            Some(Line::Window(window)) => {
                list.push(window);
                continue;
            }
            Some(Line::Clear) => {
                list.clear();
                continue;
            }
            Some(Line::Next(given)) => find(&list, given).map(|found| match found {
                Some(Moment { date, minute }) => format!("{date} {minute}"),
                None => "none".to_string(),
            }),
            Some(Line::Roll(date)) => date.rolled().map(|next| next.to_string()),
        };
        writeln!(print, "{}", answer.unwrap_or_else(|number| format!("refused {number}")))?;
    }
}

/// "one space between words, a line feed after each line".
fn parse(line: &[u8]) -> Option<Line> {
    let line = std::str::from_utf8(line).ok()?.strip_suffix('\n')?;
    // Two spaces, or one at either end, make an empty word, which no place takes.
    match line.split(' ').collect::<Vec<_>>()[..] {
        ["window", first, last, start, end] => {
            Some(Line::Window(Window { first: date(first)?, last: date(last)?, start: minute(start)?, end: minute(end)? }))
        }
        ["clear"] => Some(Line::Clear),
        ["next", day, at] => Some(Line::Next(Moment { date: date(day)?, minute: minute(at)? })),
        ["roll", day] => Some(Line::Roll(date(day)?)),
        _ => None,
    }
}

/// YYYY-MM-DD, whether or not there is such a date.
fn date(word: &str) -> Option<Date> {
    let [year, month, day] = word.split('-').collect::<Vec<_>>()[..] else {
        return None;
    };
    let digits = |part: &str, count| part.len() == count && part.bytes().all(|byte| byte.is_ascii_digit());
    if !(digits(year, 4) && digits(month, 2) && digits(day, 2)) {
        return None;
    }
    Some(Date { year: year.parse().ok()?, month: month.parse().ok()?, day: day.parse().ok()? })
}

/// "decimal numbers without leading zeros or plus sign", here below 65536.
fn minute(word: &str) -> Option<u16> {
    u16::try_from(decimal(word)?).ok()
}
