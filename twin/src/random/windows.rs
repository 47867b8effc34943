//! Random lines for the program `windows`: lists of windows, and questions at their edges and at the calendar's.

use super::dice::Dice;
use crate::windows::{calendar, Date, Window, DAY};

/// Random lines: so many lists of windows, each with its questions. The last line of every other seed has one place spoiled.
pub fn random_lines(seed: u64, lists: u64) -> String {
    let mut dice = Dice::seeded(seed);
    let mut text = String::new();
    for _ in 0..lists {
        text += &random_list(&mut dice);
    }
    if seed.is_multiple_of(2) {
        text += &spoiled(&mut dice);
    }
    text
}

fn random_list(dice: &mut Dice) -> String {
    let count = dice.weighted(&[(1, 0), (3, 1), (3, 2), (3, 5), (1, 31), (2, 32), (1, 33), (1, 40)]);
    let width = dice.pick(&[1, 3, 40, 400, 36525]);
    let mut windows: Vec<Window> = (0..count).map(|_| random_window(dice, width)).collect();
    if count > 0 && dice.one_in(6) {
        let place = dice.below(count) as usize;
        windows[place] = odd_window(dice, windows[place]);
    }
    let mut text = String::from("clear\n");
    for window in &windows {
        text += &written(window);
        if dice.one_in(8) {
            text += &question(dice, &windows);
        }
    }
    for _ in 0..dice.below(12) {
        text += &question(dice, &windows);
    }
    text
}

fn written(Window { first, last, start, end }: &Window) -> String {
    format!("window {first} {last} {start} {end}\n")
}

/// A window that exists, of at most so many days.
fn random_window(dice: &mut Dice, width: u64) -> Window {
    let first = random_day(dice);
    let last = shifted(first, dice.below(width) as i64);
    let any = random_minute(dice);
    let start = dice.pick(&[0, 1, 600, 1438, 1439, any, any]);
    let longer = dice.below(60) as u16;
    let end = dice.pick(&[start + 1, start + 1 + longer, start + 1 + any, DAY]);
    Window { first, last, start, end: end.min(DAY) }
}

fn random_minute(dice: &mut Dice) -> u16 {
    dice.below(u64::from(DAY)) as u16
}

/// A day of the calendar, often at the end of a month or of the calendar.
fn random_day(dice: &mut Dice) -> Date {
    let days = calendar();
    let any = days[dice.below(days.len() as u64) as usize];
    let month = dice.pick(&[1, 3, 3, any.month]);
    let turn = Date { month, day: 1, ..any };
    let back = dice.below(4) as i64;
    dice.weighted(&[(4, any), (4, shifted(turn, 1 - back)), (1, shifted(Date::FIRST, back)), (1, shifted(Date::LAST, -back))])
}

/// The day so many days on, within the calendar; a date that does not exist stays.
fn shifted(date: Date, days: i64) -> Date {
    let Some(place) = date.place() else {
        return date;
    };
    calendar()[(place as i64 + days).clamp(0, calendar().len() as i64 - 1) as usize]
}

/// A window spoiled in one place; some still exist.
fn odd_window(dice: &mut Dice, window: Window) -> Window {
    let Window { first, last, start, end } = window;
    let (date, minute) = (odd_date(dice), odd_minute(dice));
    dice.pick(&[
        Window { first: date, ..window },
        Window { last: date, ..window },
        Window { first: shifted(last, 1), ..window },
        Window { first: last, last: first, ..window },
        Window { start: end, ..window },
        Window { start: end, end: start, ..window },
        Window { end: minute, ..window },
        Window { start: minute, end: minute.saturating_add(1), ..window },
    ])
}

/// A date at the edge of existing.
fn odd_date(dice: &mut Dice) -> Date {
    let year = dice.pick(&[0, 1900, 1999, 2000, 2001, 2023, 2024, 2096, 2099, 2100, 2400, 9999]);
    let short = dice.pick(&[4, 6, 9, 11]);
    let long = dice.pick(&[1, 3, 5, 7, 8, 10, 12]);
    let (month, day) = dice.pick(&[(2, 28), (2, 29), (2, 29), (2, 30), (short, 30), (short, 31), (long, 31), (long, 32), (long, 0), (0, 1), (13, 1), (99, 99)]);
    Date { year, month, day }
}

fn odd_minute(dice: &mut Dice) -> u16 {
    dice.pick(&[0, 1, 1439, 1440, 1441, 2880, 32768, 65535])
}

/// A question, mostly at an edge of one of the windows.
fn question(dice: &mut Dice, windows: &[Window]) -> String {
    let mut dates = vec![random_day(dice), random_day(dice)];
    let mut minutes = vec![0, DAY - 1, random_minute(dice)];
    if let Some(place) = dice.below(windows.len() as u64 + 1).checked_sub(1) {
        let Window { first, last, start, end } = windows[place as usize];
        let by = dice.below(5) as i64 - 2;
        dates.extend([first, last, shifted(first, by), shifted(last, by)]);
        minutes.extend([start, start.saturating_sub(1), end.saturating_sub(1), end]);
    }
    let odd = dice.below(24);
    let date = if odd == 0 { odd_date(dice) } else { dice.pick(&dates) };
    let minute = if odd == 1 { odd_minute(dice) } else { dice.pick(&minutes).min(DAY - 1) };
    match dice.one_in(5) {
        true => format!("roll {date}\n"),
        false => format!("next {date} {minute}\n"),
    }
}

/// A line with one place left out, doubled, added or changed, and perhaps a good one after it, which tells whether that line was taken.
fn spoiled(dice: &mut Dice) -> String {
    let window = random_window(dice, 40);
    let lines = ["clear\n".to_string(), written(&window), question(dice, &[window]), question(dice, &[window])];
    let mut letters: Vec<char> = lines[dice.below(4) as usize].chars().collect();
    let place = dice.below(letters.len() as u64) as usize;
    let other = dice.pick(&[' ', '\n', '\r', '\t', '\0', '-', '+', '0', '1', '9', ':', '/', 'a', 'N', 'é']);
    match dice.below(4) {
        0 => drop(letters.remove(place)),
        1 => letters.insert(place, letters[place]),
        2 => letters.insert(place, other),
        _ => letters[place] = other,
    }
    letters.into_iter().collect::<String>() + dice.pick(&["roll 2024-02-28\n", "roll 2024-02-28\n", "roll 2024-02-28", ""])
}
