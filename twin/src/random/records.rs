//! Random records for the judge (document 02, P13): runs that the book permits, wild ones that it mostly does not, and damaged texts of both.

use super::dice::Dice;
use crate::cue::{Cue, CUE_LEN};
use crate::end::Status;
use crate::judge::{Book, Line, LINES};

/// The record of a seed: of four seeds one is as the book permits it, the others are damaged or wild.
pub fn random_record(seed: u64) -> Vec<u8> {
    let mut dice = Dice::seeded(seed);
    let length = match seed % 512 {
        0 => LINES as u64,
        1 => LINES as u64 + 1,
        2..=9 => 300 + dice.below(700),
        _ => dice.pick(&[5, 20, 40, 80]) + dice.below(20),
    };
    let wild = seed % 4 == 3;
    let text = walk(&mut dice, length, wild);
    match seed % 4 {
        0 | 3 => text,
        _ => damaged(&mut dice, text),
    }
}

/// The records of these seeds.
pub fn random_records(from: u64, to: u64) -> impl Iterator<Item = (u64, Vec<u8>)> {
    (from..=to).map(|seed| (seed, random_record(seed)))
}

/// How a record is drawn: the hosts that take part, and how likely a line is of which sort.
struct Walk {
    hosts: Vec<u8>,
    talker: u8,
    /// How often a move is drawn once all are members.
    restless: u64,
    /// How far ahead of the last one handed out a got may be.
    jumpy: bool,
}

fn walk(dice: &mut Dice, length: u64, wild: bool) -> Vec<u8> {
    let count = 2 + dice.below(7) as usize;
    let walk = Walk {
        hosts: (0..count as u8).collect(),
        talker: dice.small(count as u64),
        restless: dice.pick(&[4, 10, 40, 400]),
        jumpy: dice.one_in(2),
    };
    let mut book = Book::default();
    let mut text = String::new();
    let mut lines = 0;
    while lines < length {
        let line = walk.line(dice, &book);
        let permitted = book.permits(&line);
        if !permitted && !(wild && dice.one_in(12)) {
            continue;
        }
        if permitted {
            book.enter(&line);
        }
        text += &format!("{line}\n");
        lines += 1;
    }
    text.into_bytes()
}

impl Walk {
    /// A line that may be permitted, seldom one that is not.
    fn line(&self, dice: &mut Dice, book: &Book) -> Line {
        let host = dice.pick(&self.hosts);
        let member = book.status[usize::from(host)] == Status::Member;
        if !member || dice.one_in(self.restless) {
            return self.moved(dice, host);
        }
        match dice.below(3) {
            0 => self.sent(dice, book),
            _ => self.handed(dice, book, host),
        }
    }

    fn moved(&self, dice: &mut Dice, host: u8) -> Line {
        match dice.below(40) {
            0..=17 => Line::Join(host),
            18..=35 => Line::Joined(host),
            36 | 37 => Line::Leave(host),
            38 => Line::Left(host),
            _ if dice.one_in(12) => Line::Crash(host),
            _ => Line::Left(host),
        }
    }

    fn sent(&self, dice: &mut Dice, book: &Book) -> Line {
        let host = match dice.one_in(4) {
            true => dice.pick(&self.hosts),
            false => self.talker,
        };
        let next = book.filed[usize::from(host)].len() as u16;
        let number = match dice.one_in(30) {
            true => dice.pick(&[0, next.wrapping_sub(1), next + 1, next + 64]),
            false => next,
        };
        Line::Send { host, number, cue: cue(dice) }
    }

    /// A got: near the edges of what is within the limits.
    fn handed(&self, dice: &mut Dice, book: &Book, host: u8) -> Line {
        let source = match dice.one_in(3) {
            true => dice.pick(&self.hosts),
            false => self.talker,
        };
        let filed = &book.filed[usize::from(source)];
        let handed = &book.handed[usize::from(host)][usize::from(source)];
        let highest = handed.iter().max().copied().unwrap_or(0);
        let first = handed.first().copied().unwrap_or(0);
        let any = dice.number(filed.len() as u64 + 1);
        let near = highest.saturating_sub(60 + dice.number(6));
        let number = match self.jumpy {
            true => dice.pick(&[any, any, any, near, near, first, highest + 1]),
            false => dice.pick(&[any, highest + 1, highest + 1, near, first.saturating_sub(1)]),
        };
        let at = usize::from(number);
        let mut bytes = filed.get(at).copied().unwrap_or(Cue::ZERO);
        if dice.one_in(60) {
            bytes.0[dice.below(CUE_LEN as u64) as usize] ^= 1;
        }
        Line::Got { host, source, number, cue: bytes }
    }
}

/// A cue in range, now and then at an edge of it.
fn cue(dice: &mut Dice) -> Cue {
    let mut bytes = [0; CUE_LEN];
    for at in [0, 2, 4, 6] {
        let any = dice.below(4001) as i16 - 2000;
        let offset: i16 = dice.pick(&[any, any, 2000, -2000, 0]);
        bytes[at..at + 2].copy_from_slice(&offset.to_be_bytes());
    }
    let any = dice.below(1001) as u16;
    bytes[8..10].copy_from_slice(&dice.pick(&[any, 1000, 0]).to_be_bytes());
    for byte in &mut bytes[10..] {
        *byte = dice.byte();
    }
    Cue(bytes)
}

/// A text with one to three damages.
fn damaged(dice: &mut Dice, text: Vec<u8>) -> Vec<u8> {
    let mut text = text;
    for _ in 0..dice.weighted(&[(4, 1), (1, 2), (1, 3)]) {
        text = damage(dice, text);
    }
    text
}

fn damage(dice: &mut Dice, text: Vec<u8>) -> Vec<u8> {
    if text.is_empty() {
        return text;
    }
    match dice.below(10) {
        0 => on_lines(dice, text, |_, lines, at| drop(lines.remove(at))),
        1 => on_lines(dice, text, |_, lines, at| lines.insert(at, lines[at].clone())),
        2 => on_lines(dice, text, |dice, lines, at| {
            let other = dice.below(lines.len() as u64) as usize;
            lines.swap(at, other);
        }),
        3 => on_lines(dice, text, changed_digit),
        4 => on_lines(dice, text, |dice, lines, at| changed_number(dice, &mut lines[at])),
        5 => on_lines(dice, text, |dice, lines, at| changed_word(dice, &mut lines[at])),
        6 => on_lines(dice, text, moved_line),
        7 => garbled(dice, text),
        8 => cut(dice, text),
        _ => on_lines(dice, text, |dice, lines, at| odd_cue(dice, &mut lines[at])),
    }
}

type Lines = Vec<Vec<u8>>;

/// Changes the lines of a text, of which one is drawn; each keeps its line feed.
fn on_lines(dice: &mut Dice, text: Vec<u8>, change: fn(&mut Dice, &mut Lines, usize)) -> Vec<u8> {
    let mut lines: Lines = text.split_inclusive(|&b| b == b'\n').map(<[u8]>::to_vec).collect();
    let at = dice.below(lines.len() as u64) as usize;
    change(dice, &mut lines, at);
    lines.concat()
}

/// A line goes to another place.
fn moved_line(dice: &mut Dice, lines: &mut Lines, at: usize) {
    let line = lines.remove(at);
    let to = dice.below(lines.len() as u64 + 1) as usize;
    lines.insert(to, line);
}

/// One digit of a line is another.
fn changed_digit(dice: &mut Dice, lines: &mut Lines, at: usize) {
    let line = &mut lines[at];
    let digits: Vec<usize> = (0..line.len()).filter(|&i| line[i].is_ascii_digit()).collect();
    if !digits.is_empty() {
        let place = dice.pick(&digits);
        line[place] = b'0' + dice.small(10);
    }
}

/// The words of a line, without its line feed.
fn words(line: &[u8]) -> Vec<String> {
    let text = String::from_utf8_lossy(line);
    text.trim_end_matches('\n').split(' ').map(String::from).collect()
}

/// A number of a line is raised by 64, brought to an edge, or written otherwise.
fn changed_number(dice: &mut Dice, line: &mut Vec<u8>) {
    let mut words = words(line);
    let numbers: Vec<usize> = (1..words.len()).filter(|&i| words[i].len() < 7).collect();
    if numbers.is_empty() {
        return;
    }
    let word = &mut words[dice.pick(&numbers)];
    let value: u64 = word.parse().unwrap_or(0);
    *word = match dice.below(12) {
        0..=2 => (value + 64).to_string(),
        3 => (value + 1).to_string(),
        4 => value.saturating_sub(1).to_string(),
        5 => dice.pick(&["7", "8", "9", "255", "256"]).to_string(),
        6 => dice.pick(&["65535", "65536", "4294967296", "18446744073709551616"]).to_string(),
        7 => (value + 65_536).to_string(),
        8 => format!("0{value}"),
        9 => format!("+{value}"),
        10 => format!("-{value}"),
        _ => String::new(),
    };
    *line = format!("{}\n", words.join(" ")).into_bytes();
}

/// A word is another, or the line has one more or fewer, or another space.
fn changed_word(dice: &mut Dice, line: &mut Vec<u8>) {
    let mut words = words(line);
    let at = dice.below(words.len() as u64) as usize;
    match dice.below(6) {
        0 => words[0] = dice.pick(&["join", "joined", "leave", "left", "crash", "send", "got", "Join", "gots", ""]).to_string(),
        1 => drop(words.remove(at)),
        2 => words.insert(at, words[at].clone()),
        3 => words.insert(at, String::new()),
        4 => words.push(String::new()),
        _ => words[at] = words[at].replace(['0', '1'], "\t"),
    }
    *line = format!("{}\n", words.join(" ")).into_bytes();
}

/// A cue's digits: small letters, one more or fewer, another byte at the edge of its range.
fn odd_cue(dice: &mut Dice, line: &mut Vec<u8>) {
    let mut words = words(line);
    let Some(cue) = words.last_mut().filter(|word| word.len() == 2 * CUE_LEN) else {
        return;
    };
    match dice.below(8) {
        0 => *cue = cue.to_lowercase(),
        1 => cue.push('0'),
        2 => drop(cue.pop()),
        3 => cue.push_str("00"),
        4 => {
            let at = 4 * dice.below(4) as usize;
            cue.replace_range(at..at + 4, dice.pick(&["07D0", "07D1", "F830", "F82F", "8000", "7FFF"]));
        }
        5 => cue.replace_range(16..20, dice.pick(&["03E8", "03E9", "FFFF", "8000"])),
        6 => cue.replace_range(46..48, dice.pick(&["00", "FF", "G0", "0G", "/0", ":0", "@0", "0a"])),
        _ => *cue = String::from("none"),
    }
    *line = format!("{}\n", words.join(" ")).into_bytes();
}

/// Bytes are other bytes, or come in, or go.
fn garbled(dice: &mut Dice, text: Vec<u8>) -> Vec<u8> {
    let mut text = text;
    for _ in 0..1 + dice.below(3) {
        let at = dice.below(text.len() as u64 + 1) as usize;
        let any = dice.byte();
        let byte = dice.pick(&[any, any, b' ', b'\n', b'\r', 0, b'0']);
        match dice.below(3) {
            0 => text.insert(at, byte),
            1 if at < text.len() => drop(text.remove(at)),
            _ if at < text.len() => text[at] = byte,
            _ => {}
        }
    }
    text
}

/// The text ends early: before its last line feed, anywhere, or with a line feed more.
fn cut(dice: &mut Dice, text: Vec<u8>) -> Vec<u8> {
    let mut text = text;
    match dice.below(4) {
        0 | 1 => text.truncate(text.len() - 1),
        2 => text.truncate(dice.below(text.len() as u64) as usize),
        _ => text.push(b'\n'),
    }
    text
}
