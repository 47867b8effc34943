//! Lens windows: document 02, P10, at the calendar's edges and the windows'.

use twin::windows::{calendar, find, play, Date, Moment, Window};

fn date(year: u16, month: u8, day: u8) -> Date {
    Date { year, month, day }
}

fn at(date: Date, minute: u16) -> Moment {
    Moment { date, minute }
}

fn window(first: Date, last: Date, start: u16, end: u16) -> Window {
    Window { first, last, start, end }
}

fn played(text: &[u8]) -> String {
    let mut printed = Vec::new();
    play(text, &mut printed).expect("a vector takes all");
    String::from_utf8(printed).expect("what is printed is text")
}

#[test]
fn the_calendar_has_a_hundred_years() {
    // 25 of them have a 29 February, 2000 among them.
    assert_eq!(calendar().len(), 100 * 365 + 25);
    assert_eq!(calendar().first(), Some(&Date::FIRST));
    assert_eq!(calendar().last(), Some(&Date::LAST));
    assert!(calendar().is_sorted());
}

#[test]
fn a_date_is_rolled_one_day() {
    assert_eq!(date(2000, 2, 28).rolled(), Ok(date(2000, 2, 29)));
    assert_eq!(date(2000, 2, 29).rolled(), Ok(date(2000, 3, 1)));
    assert_eq!(date(2023, 2, 28).rolled(), Ok(date(2023, 3, 1)));
    assert_eq!(date(2024, 4, 30).rolled(), Ok(date(2024, 5, 1)));
    assert_eq!(date(2024, 12, 31).rolled(), Ok(date(2025, 1, 1)));
    assert_eq!(Date::LAST.rolled(), Ok(Date::LAST));
    for none in [date(1999, 12, 31), date(2100, 1, 1), date(2023, 2, 29), date(2024, 2, 30), date(2024, 4, 31), date(2024, 1, 0), date(2024, 13, 1)] {
        assert_eq!(none.rolled(), Err(15), "{none}");
    }
}

#[test]
fn the_earliest_minute_is_found() {
    let list = [window(date(2024, 2, 27), date(2024, 3, 1), 600, 660), window(date(2024, 2, 29), date(2024, 2, 29), 1439, 1440)];
    let cases = [
        (at(Date::FIRST, 0), Some(at(date(2024, 2, 27), 600))),
        (at(date(2024, 2, 28), 659), Some(at(date(2024, 2, 28), 659))),
        (at(date(2024, 2, 28), 660), Some(at(date(2024, 2, 29), 600))),
        (at(date(2024, 2, 29), 660), Some(at(date(2024, 2, 29), 1439))),
        (at(date(2024, 3, 1), 659), Some(at(date(2024, 3, 1), 659))),
        (at(date(2024, 3, 1), 660), None),
    ];
    for (given, found) in cases {
        assert_eq!(find(&list, given), Ok(found), "{given:?}");
    }
    assert_eq!(find(&[], at(Date::FIRST, 0)), Ok(None));
}

#[test]
fn the_last_minute_is_found() {
    let last = at(Date::LAST, 1439);
    assert_eq!(find(&[window(Date::FIRST, Date::LAST, 0, 1440)], last), Ok(Some(last)));
    assert_eq!(find(&[window(Date::LAST, Date::LAST, 0, 1439)], last), Ok(None));
}

#[test]
fn what_does_not_exist_is_refused() {
    let (day, before) = (date(2024, 5, 2), date(2024, 5, 1));
    let good = window(day, day, 0, 1440);
    let given = at(Date::FIRST, 0);
    assert_eq!(find(&[good; 32], given), Ok(Some(at(day, 0))));
    assert_eq!(find(&[good; 33], given), Err(15));
    assert_eq!(find(&[good], at(day, 1440)), Err(15));
    assert_eq!(find(&[], at(date(2023, 2, 29), 0)), Err(15));
    let none = date(2100, 1, 1);
    for odd in [window(day, day, 10, 10), window(day, day, 11, 10), window(day, day, 0, 1441), window(day, before, 0, 1), window(day, none, 0, 1)] {
        // "before any search": a good window of an earlier place changes nothing
        assert_eq!(find(&[good, odd], at(day, 0)), Err(15), "{odd:?}");
    }
}

#[test]
fn a_malformed_line_ends_the_run() {
    assert_eq!(played(b""), "");
    assert_eq!(played(b"clear\nnext 2024-02-28 0\nnext 9999-99-99 65535\nroll 0000-00-00\n"), "none\nrefused 15\nrefused 15\n");
    let bad: [&[u8]; 14] = [
        b"\n", b"clear", b"clear \n", b" clear\n", b"clear\r\n", b"Clear\n", b"next 2024-02-28\n", b"next 2024-02-28 00\n", b"next 2024-02-28 +1\n",
        b"next 2024-02-28 65536\n", b"next  2024-02-28 1\n", b"roll 2024-2-28\n", b"roll 02024-02-28\n", b"roll 2024-02-\xff8\n",
    ];
    for line in bad {
        let text = [b"roll 2024-02-28\n", line, b"roll 2024-02-28\n"].concat();
        let text = if line.ends_with(b"\n") { &text[..] } else { &text[..16 + line.len()] };
        assert_eq!(played(text), "2024-02-29\nbad\n", "{}", String::from_utf8_lossy(line));
    }
}
