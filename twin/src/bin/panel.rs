//! Random calls of a panel's software with the twin's answers, a line each, as panel/tests/replay.c plays them.
//!   panel SEED COUNT
//! Half of the messages are good or old ones; the others are damaged in one to three ways, or garbage.
use std::fmt::Write as _;
use std::io::{self, BufWriter, Write};
use twin::cue::Cue;
use twin::message::{
    put_together, put_together_old, Echo, Message, Name, Report, ANNC, ANNC_SPAN, DATA, FTCH, LATE,
    REPL, RQST, SESS, XPRS,
};
use twin::panel::{cue_test, verdict, write_data};
use twin::CLOCK_MAX;

/// Drawn numbers (splitmix64).
struct Dice(u64);

impl Dice {
    fn below(&mut self, n: u64) -> u64 {
        self.0 = self.0.wrapping_add(0x9E37_79B9_7F4A_7C15);
        let x = (self.0 ^ (self.0 >> 30)).wrapping_mul(0xBF58_476D_1CE4_E5B9);
        let y = (x ^ (x >> 27)).wrapping_mul(0x94D0_49BB_1331_11EB);
        (y ^ (y >> 31)) % n
    }

    fn one_in(&mut self, n: u64) -> bool {
        self.below(n) == 0
    }

    fn pick<T: Copy>(&mut self, some: &[T]) -> T {
        some[self.below(some.len() as u64) as usize]
    }

    fn byte(&mut self) -> u8 {
        self.below(256) as u8
    }

    fn bytes(&mut self, count: u64) -> Vec<u8> {
        (0..count).map(|_| self.byte()).collect()
    }

    /// A place in so many bytes.
    fn place(&mut self, bytes: &[u8]) -> usize {
        self.below(bytes.len().max(1) as u64) as usize
    }
}

fn host(dice: &mut Dice) -> u8 {
    dice.below(8) as u8
}

fn ticks(dice: &mut Dice) -> u64 {
    match dice.below(4) {
        0 => dice.pick(&[0, 1, 392, CLOCK_MAX - 1, CLOCK_MAX]),
        1 => dice.below(1 << 16),
        _ => dice.below(CLOCK_MAX + 1),
    }
}

fn number(dice: &mut Dice) -> u16 {
    match dice.below(4) {
        0 => dice.pick(&[0, 1, 62, 63, 64, 65, 255, 256, 32767, 32768, 65534, 65535]),
        1 => dice.below(64) as u16,
        _ => dice.below(65536) as u16,
    }
}

/// A cue in range, with offsets at their ends now and then.
fn cue(dice: &mut Dice) -> Cue {
    let mut cue = Cue::ZERO;
    cue.0[10..].copy_from_slice(&dice.bytes(14));
    for field in 0..4 {
        let steps = match dice.below(3) {
            0 => dice.pick(&[-2000, -1999, -2, -1, 0, 1, 1999, 2000]),
            _ => dice.below(4001) as i16 - 2000,
        };
        cue.0[2 * field..][..2].copy_from_slice(&steps.to_be_bytes());
    }
    let lamp = match dice.below(3) {
        0 => dice.pick(&[0, 1, 255, 256, 999, 1000]),
        _ => dice.below(1001) as u16,
    };
    cue.0[8..10].copy_from_slice(&lamp.to_be_bytes());
    cue
}

/// A cue, every other one with a field out of range.
fn any_cue(dice: &mut Dice) -> Cue {
    let mut cue = cue(dice);
    if dice.one_in(2) {
        let field = dice.below(5) as usize;
        let value = match field {
            4 => dice.pick(&[1001, 1002, 1255, 32768, 65535]),
            _ => dice.pick(&[2001, 2002, 32767, 0x8000, 0xF82F, 0xF82E, 0x9000]),
        };
        cue.0[2 * field..][..2].copy_from_slice(&u16::to_be_bytes(value));
    }
    cue
}

/// Some of the hosts, rising.
fn some_hosts(dice: &mut Dice, but: Option<u8>) -> Vec<u8> {
    let chance = dice.pick(&[1, 2, 3, 8]);
    let picked = (0..8).filter(|&h| Some(h) != but && (chance == 1 || dice.one_in(chance)));
    picked.collect()
}

fn host_but(dice: &mut Dice, none: &[u8]) -> u8 {
    let hosts: Vec<u8> = (0..8).filter(|h| !none.contains(h)).collect();
    dice.pick(&hosts)
}

/// A message of one of the eight kinds, as it should be.
fn good(dice: &mut Dice) -> Message {
    let kind = dice.pick(&[DATA, RQST, REPL, SESS, XPRS, FTCH, LATE, ANNC]);
    let mut message = Message {
        kind,
        sender: host(dice),
        stamp: ticks(dice),
        names: vec![],
        cues: vec![],
        reports: vec![],
        echoes: vec![],
    };
    if kind == SESS {
        report(dice, &mut message);
    } else {
        name(dice, &mut message);
    }
    message
}

/// The table's last column, "host in the name".
fn name(dice: &mut Dice, message: &mut Message) {
    let sender = message.sender;
    let (source, host) = match message.kind {
        RQST => (host_but(dice, &[sender]), sender),
        XPRS | FTCH => (host_but(dice, &[sender]), host_but(dice, &[sender])),
        REPL | LATE => {
            let source = host(dice);
            (source, host_but(dice, &[sender, source]))
        }
        _ => (sender, sender),
    };
    let number = number(dice);
    message.names.push(Name {
        source,
        number,
        host,
    });
    match message.kind {
        RQST | XPRS | FTCH => {}
        ANNC => lead(dice, message),
        _ => message.cues.push(cue(dice)),
    }
}

/// The second name of an ANNC: its number is from the first's to 63 above it.
fn lead(dice: &mut Dice, message: &mut Message) {
    let trail = message.names[0];
    let more = dice.pick(&[0, 1, ANNC_SPAN - 1, ANNC_SPAN]);
    message.names.push(Name {
        number: trail.number.saturating_add(more),
        ..trail
    });
}

fn report(dice: &mut Dice, message: &mut Message) {
    for source in some_hosts(dice, None) {
        let last = number(dice);
        message.reports.push(Report { source, last });
    }
    for host in some_hosts(dice, Some(message.sender)) {
        let (stamp, held) = (ticks(dice), ticks(dice));
        message.echoes.push(Echo { host, stamp, held });
    }
}

/// The bytes of a message, every third one of an old kind; of those one in eight has a number above 63.
fn laid_out(dice: &mut Dice, mut message: Message) -> Vec<u8> {
    if !dice.one_in(3) {
        return put_together(&message);
    }
    message.kind = message.kind.wrapping_sub(16);
    let least = if dice.one_in(8) { 64 } else { 0 };
    for name in &mut message.names {
        name.number = least + name.number % 64;
    }
    for report in &mut message.reports {
        report.last = least + report.last % 64;
    }
    put_together_old(&message)
}

type Damage = fn(&mut Dice, &mut Message);

/// What can be wrong with a message's parts.
const DAMAGES: [Damage; 15] = [
    |dice, m| m.kind = dice.pick(&[0, 5, 7, 16, 17, 18, 19, 20, 21, 22, 23, 24, 25, 255]),
    |dice, m| m.sender = dice.pick(&[0, 1, 7, 8, 9, 255]),
    |dice, m| {
        m.names
            .iter_mut()
            .for_each(|n| n.source = dice.below(10) as u8)
    },
    |dice, m| {
        m.names
            .iter_mut()
            .for_each(|n| n.host = dice.below(10) as u8)
    },
    |dice, m| m.cues.iter_mut().for_each(|c| *c = any_cue(dice)),
    |dice, m| {
        if let [trail, lead] = &mut m.names[..] {
            let above = dice.pick(&[ANNC_SPAN, ANNC_SPAN + 1, u16::MAX]);
            lead.number = trail.number.wrapping_add(above);
        }
    },
    |_, m| m.names.extend(m.names.clone()),
    |_, m| m.cues.extend(m.cues.clone()),
    |_, m| m.names.clear(),
    |_, m| m.cues.clear(),
    |_, m| m.reports.reverse(),
    |_, m| m.echoes.reverse(),
    |_, m| m.reports.extend(m.reports.first().copied()),
    |dice, m| {
        let (host, stamp, held) = (dice.below(10) as u8, ticks(dice), ticks(dice));
        m.echoes.push(Echo { host, stamp, held });
    },
    |dice, m| {
        let (source, last) = (dice.below(10) as u8, number(dice));
        m.reports.push(Report { source, last });
    },
];

/// Damage to the bytes: one other, some more, some less, one in between.
fn damage(dice: &mut Dice, bytes: &mut Vec<u8>) {
    let at = dice.place(bytes);
    match dice.below(7) {
        0 | 1 if !bytes.is_empty() => bytes[at] = dice.byte(),
        2 if !bytes.is_empty() => bytes[at] ^= 1 << dice.below(8),
        3 => bytes.truncate(at),
        4 => bytes.insert(at, dice.byte()),
        5 if bytes.len() > 8 => bytes[8] = dice.pick(&[0, 1, 2, 255]),
        _ => {
            let more = dice.below(4);
            bytes.extend(dice.bytes(more));
        }
    }
}

/// A message with as many entries as one byte can count, or nearly.
fn crowded(dice: &mut Dice) -> Vec<u8> {
    let mut bytes = vec![dice.byte(), 0, 0, 0, 0, 0, 0, 0];
    let old = (1..=4).contains(&bytes[0]);
    let sizes = if old { [3, 24, 2, 13] } else { [4, 24, 3, 13] };
    for size in sizes {
        let count = dice.pick(&[0, 0, 1, 2, 9, 255]);
        bytes.push(count as u8);
        bytes.extend(vec![0; count * size]);
    }
    bytes
}

fn datagram(dice: &mut Dice) -> Vec<u8> {
    if dice.one_in(400) {
        return crowded(dice);
    }
    if dice.one_in(20) {
        let length = dice.pick(&[0, 0, 1, 11, 12, 13, 40, 127, 128]);
        return dice.bytes(length);
    }
    let mut message = good(dice);
    let damaged = dice.one_in(2);
    if damaged {
        for _ in 0..dice.below(3) {
            dice.pick(&DAMAGES)(dice, &mut message);
        }
    }
    let mut bytes = laid_out(dice, message);
    if damaged {
        for _ in 0..dice.below(3) {
            damage(dice, &mut bytes);
        }
    }
    bytes
}

/// The bytes of a cue, of which one in eight has not 24.
fn cue_bytes(dice: &mut Dice) -> Vec<u8> {
    let mut bytes = any_cue(dice).0.to_vec();
    if dice.one_in(8) {
        let length = dice.pick(&[0, 1, 23, 25, 26, 48]);
        bytes.resize(length, 0);
    }
    bytes
}

fn wide(dice: &mut Dice, limit: u64) -> u64 {
    match dice.below(16) {
        0 => dice.pick(&[limit, limit + 1, 1 << 32, 1 << 48, u64::MAX]),
        1 => limit - 1,
        _ => dice.below(limit),
    }
}

fn hex(bytes: &[u8]) -> String {
    if bytes.is_empty() {
        return "none".to_string();
    }
    let mut digits = String::with_capacity(2 * bytes.len());
    for byte in bytes {
        let _ = write!(digits, "{byte:02X}");
    }
    digits
}

fn writing(dice: &mut Dice) -> String {
    let (sender, number) = (wide(dice, 8), wide(dice, 65536));
    let stamp = wide(dice, CLOCK_MAX + 1);
    let cue = match dice.one_in(2) {
        true => cue(dice).0.to_vec(),
        false => cue_bytes(dice),
    };
    let room = match dice.one_in(8) {
        true => dice.pick(&[0, 39, 40, 127]),
        false => dice.pick(&[128, 128, 129, 200, 4096]),
    };
    let mut out = vec![0xAA; room];
    let answer = write_data(sender, number, stamp, &cue, &mut out);
    let call = format!("write {sender} {number} {stamp} {} {room}", hex(&cue));
    match answer {
        40 => format!("{call} = 40 {}", hex(&out[..40])),
        _ => format!("{call} = {answer}"),
    }
}

fn line(dice: &mut Dice) -> String {
    match dice.below(8) {
        0..=4 => {
            let bytes = datagram(dice);
            format!("verdict {} = {}", hex(&bytes), verdict(&bytes))
        }
        5 => {
            let bytes = cue_bytes(dice);
            format!("cue {} = {}", hex(&bytes), cue_test(&bytes))
        }
        _ => writing(dice),
    }
}

fn main() -> io::Result<()> {
    let words: Vec<u64> = std::env::args()
        .skip(1)
        .flat_map(|word| word.parse())
        .collect();
    let &[seed, count] = words.as_slice() else {
        eprintln!("usage: panel SEED COUNT");
        std::process::exit(2);
    };
    let mut dice = Dice(seed);
    let mut out = BufWriter::new(io::stdout().lock());
    for _ in 0..count {
        writeln!(out, "{}", line(&mut dice))?;
    }
    out.flush()
}
