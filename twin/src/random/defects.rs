//! Messages that are good but for one thing, so that one question alone turns them down.

use super::messages::Reader;
use super::stage::SPARE;
use super::Run;
use crate::message::{self, Echo, Message, Name, Report};
use crate::message::{ANNC, DATA, FTCH, LATE, REPL, RQST, XPRS};

type Defect = fn(&mut Run, &mut Message);

/// Each part of questions 9, 10 and 11.
const DEFECTS: [(u64, Defect); 32] = [
    (1, |run, m| {
        m.kind = run.dice.pick(&[0, 5, 6, 7, 16, 25, 26, 255])
    }),
    (2, |run, m| m.kind = DATA + run.dice.small(8)),
    (2, |run, m| m.sender = run.dice.pick(&[8, 9, 255])),
    (2, |run, m| name_host(run, m, |name| &mut name.source)),
    (2, |run, m| name_host(run, m, |name| &mut name.host)),
    (3, |_, m| {
        host_in_name(m, REPL, |name, sender| name.host = sender)
    }),
    (3, |_, m| {
        host_in_name(m, REPL, |name, _| name.host = name.source)
    }),
    (3, |_, m| {
        host_in_name(m, RQST, |name, sender| name.source = sender)
    }),
    (2, |_, m| host_in_name(m, RQST, |name, _| name.host ^= 1)),
    (3, |_, m| {
        host_in_name(m, XPRS, |name, sender| name.host = sender)
    }),
    (3, |_, m| {
        host_in_name(m, XPRS, |name, sender| name.source = sender)
    }),
    (3, |_, m| {
        host_in_name(m, FTCH, |name, sender| name.host = sender)
    }),
    (3, |_, m| {
        host_in_name(m, FTCH, |name, sender| name.source = sender)
    }),
    (3, |_, m| {
        host_in_name(m, LATE, |name, sender| name.host = sender)
    }),
    (3, |_, m| {
        host_in_name(m, LATE, |name, _| name.host = name.source)
    }),
    (3, |_, m| host_in_name(m, DATA, |name, _| name.host ^= 1)),
    (3, |run, m| announced(run, m, |name| name.source ^= 1)),
    (3, |run, m| announced(run, m, |name| name.host ^= 1)),
    (3, |run, m| {
        let above = run.dice.pick(&[64, 64, 65, 1000]);
        lead(m, |trail| trail.checked_add(above))
    }),
    (3, |run, m| {
        let below = run.dice.pick(&[1, 1, 63, 64, 65_000]);
        lead(m, |trail| trail.checked_sub(below))
    }),
    (6, one_of_two),
    (3, |_, m| {
        if m.kind == DATA {
            m.sender ^= 1
        }
    }),
    (2, cue_field),
    (1, |_, m| m.names.extend(m.names.clone())),
    (1, |_, m| m.cues.extend(m.cues.clone())),
    (1, |_, m| m.cues.clear()),
    (4, report_source),
    (4, echo_byte),
    (4, repeat_report),
    (4, repeat_echo),
    (4, |_, m| echo_sender(m)),
    (4, crowd),
];

impl Run {
    /// A composed message with one defect: such that the defect applies to its kind, and the reader refuses it.
    pub fn defective(&mut self, reader: &Reader) -> Message {
        let defect = self.dice.weighted(&DEFECTS);
        loop {
            let mut message = self.compose(reader);
            defect(self, &mut message);
            if message::read(&message::put_together(&message)).is_err() {
                return message;
            }
        }
    }
}

/// A host of the name out of range. A cue number of two bytes never is.
fn name_host(run: &mut Run, m: &mut Message, which: fn(&mut Name) -> &mut u8) {
    let host = run.dice.pick(&[8, 9, 255]);
    if let Some(name) = m.names.first_mut() {
        *which(name) = host;
    }
}

/// A host in the name that the kind's row in document 01's table does not allow.
fn host_in_name(m: &mut Message, kind: u8, spoil: fn(&mut Name, u8)) {
    if m.kind == kind {
        spoil(&mut m.names[0], m.sender);
    }
}

/// One of kind 24's two names spoiled.
fn announced(run: &mut Run, m: &mut Message, spoil: fn(&mut Name)) {
    if m.kind == ANNC {
        spoil(&mut m.names[run.dice.below(2) as usize]);
    }
}

/// Another lead, where there is such a number.
fn lead(m: &mut Message, of_trail: impl Fn(u16) -> Option<u16>) {
    if let (ANNC, [trail, lead]) = (m.kind, &mut m.names[..]) {
        lead.number = of_trail(trail.number).unwrap_or(lead.number);
    }
}

/// Kind 24 with one name, with none, with a cue, or under the next kind byte.
fn one_of_two(run: &mut Run, m: &mut Message) {
    if m.kind != ANNC {
        return;
    }
    match run.dice.below(4) {
        0 => m.names.truncate(1),
        1 => m.names.clear(),
        2 => m.cues.push(run.good_cue()),
        _ => m.kind = ANNC + 1,
    }
}

fn cue_field(run: &mut Run, m: &mut Message) {
    let field = run.dice.below(5) as usize;
    let value = run.bad_field(field);
    if let Some(cue) = m.cues.first_mut() {
        cue.0[2 * field..][..2].copy_from_slice(&value.to_be_bytes());
    }
}

fn report_source(run: &mut Run, m: &mut Message) {
    let count = m.reports.len();
    if count > 0 {
        let report = &mut m.reports[run.dice.below(count as u64) as usize];
        report.source = run.dice.pick(&[8, 9, 255]);
    }
}

fn echo_byte(run: &mut Run, m: &mut Message) {
    if let Some(echo) = m.echoes.last_mut() {
        echo.host = run.dice.pick(&[8, 9, 255]);
    }
}

/// Two reports of one source, or two the wrong way round.
fn repeat_report(run: &mut Run, m: &mut Message) {
    if m.kind != message::SESS {
        return;
    }
    if m.reports.is_empty() {
        let source = run.dice.small(8);
        let last = run.name_near(SPARE, source).number;
        m.reports.push(Report { source, last });
    }
    let at = run.dice.below(m.reports.len() as u64) as usize;
    let mut again = m.reports[at];
    again.last = run.dice.number(64);
    m.reports.insert(at + 1, again);
    if run.dice.one_in(2) && at > 0 {
        m.reports.remove(at + 1);
        m.reports.swap(at - 1, at);
    }
    m.reports.truncate(8);
}

/// Two echoes of one host, or two the wrong way round; at most seven, so that the counts stay good.
fn repeat_echo(run: &mut Run, m: &mut Message) {
    if m.kind != message::SESS {
        return;
    }
    if m.echoes.is_empty() {
        let host = run.dice.host_but(&[m.sender]);
        let (stamp, held) = (m.stamp, 0);
        m.echoes.push(Echo { host, stamp, held });
    }
    m.echoes.truncate(6);
    let at = run.dice.below(m.echoes.len() as u64) as usize;
    if run.dice.one_in(3) && at > 0 {
        m.echoes.swap(at - 1, at);
    } else {
        let again = m.echoes[at];
        m.echoes.insert(at + 1, again);
    }
}

fn echo_sender(m: &mut Message) {
    if m.kind == message::SESS {
        let (host, stamp, held) = (m.sender, m.stamp, 1);
        m.echoes.truncate(6);
        m.echoes.push(Echo { host, stamp, held });
        m.echoes.sort_by_key(|echo| echo.host);
        m.echoes.dedup_by_key(|echo| echo.host);
    }
}

/// More entries than the counts allow, or sections that the kind has not.
fn crowd(run: &mut Run, m: &mut Message) {
    let reports = run.dice.pick(&[0, 1, 8, 9]);
    let echoes = run.dice.pick(&[0, 1, 7, 8]);
    m.reports = (0..reports)
        .map(|source| Report { source, last: 1 })
        .collect();
    m.echoes = (0..8)
        .filter(|&host| echoes == 8 || host != m.sender)
        .take(echoes)
        .map(|host| Echo {
            host,
            stamp: 1,
            held: 0,
        })
        .collect();
    if reports == 9 {
        m.reports[8].source = 7;
    }
}
