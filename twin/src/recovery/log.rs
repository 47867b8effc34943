//! What can be seen of the calls of a finished run: when, what was heard and put out, and what the end keeps afterwards.

use super::Time;
use crate::end::{Answer, Body, End, Params, Record, Status};
use crate::message::{read, Datagram, Message, RQST, SESS, XPRS};
use crate::HOSTS;

/// The source's numbers that are looked at.
pub const NUMBERS: usize = 6;

/// A message about the source: who sent it, the number and the host in its name, or the last number that a session message reports.
#[derive(Clone, Copy, Debug, PartialEq, Eq)]
pub struct Word {
    pub kind: u8,
    pub sender: u8,
    pub number: u16,
    pub host: u8,
}

impl Word {
    /// What bytes say of a source, if anything.
    pub fn of(bytes: &[u8], source: u8) -> Option<Word> {
        let message = read(bytes).ok().and_then(Datagram::message)?;
        let Message { kind, sender, .. } = message;
        if kind == SESS {
            let report = message.reports.iter().find(|one| one.source == source)?;
            return Some(Word {
                kind,
                sender,
                number: report.last,
                host: sender,
            });
        }
        let name = message.names.first().filter(|name| name.source == source)?;
        Some(Word {
            kind,
            sender,
            number: name.number,
            host: name.host,
        })
    }

    /// "asks = RQST or XPRS", of this number.
    pub fn asks(&self, number: u16) -> bool {
        [RQST, XPRS].contains(&self.kind) && self.number == number
    }

    pub fn is(&self, kind: u8, number: u16) -> bool {
        self.kind == kind && self.number == number
    }
}

/// A waiting request; its times are those that all share.
#[derive(Clone, Copy, Debug, PartialEq, Eq)]
pub struct Asking {
    pub round: u32,
    pub due: Time,
    pub quiet: Time,
    pub express: Option<Time>,
}

/// What an end keeps of a number.
#[derive(Clone, Copy, Debug, PartialEq, Eq)]
pub struct Kept {
    pub held: bool,
    pub asking: Option<Asking>,
    /// When its reply is due.
    pub reply: Option<Time>,
    pub hush: Time,
}

/// What an end keeps of the source.
#[derive(Clone, Copy, Debug, PartialEq, Eq)]
pub struct Seen {
    pub member: bool,
    pub first: Option<u16>,
    pub last: Option<u16>,
    pub names: [Kept; NUMBERS],
}

impl Seen {
    /// Before the first call.
    pub const NONE: Seen = Seen {
        member: false,
        first: None,
        last: None,
        names: [Kept::NONE; NUMBERS],
    };

    pub fn of(end: &End, source: u8, offset: Time) -> Seen {
        let kept = &end.sources[usize::from(source)];
        let names = std::array::from_fn(|number| {
            kept.kept(number as u16)
                .map_or(Kept::NONE, |record| Kept::of(record, offset))
        });
        Seen {
            member: end.status == Status::Member,
            first: kept.first,
            last: kept.last,
            names,
        }
    }

    pub fn of_number(&self, number: u16) -> &Kept {
        &self.names[usize::from(number)]
    }

    /// Is the source open, and the number not below its first?
    pub fn keeps(&self, number: u16) -> bool {
        self.first.is_some_and(|first| first <= number)
    }

    /// Is it held, or asked for?
    pub fn knows(&self, number: u16) -> bool {
        let kept = self.of_number(number);
        kept.held || kept.asking.is_some()
    }

    /// Has it been heard of: is last not below it?
    pub fn has(&self, number: u16) -> bool {
        self.last.is_some_and(|last| last >= number)
    }
}

impl Kept {
    const NONE: Kept = Kept {
        held: false,
        asking: None,
        reply: None,
        hush: 0,
    };

    fn of(record: &Record, offset: Time) -> Kept {
        let shared = |clock: u64| clock as Time - offset;
        let asking = match record.body {
            Body::Waiting(request) => Some(Asking {
                round: request.round.into(),
                due: shared(request.due),
                quiet: shared(request.quiet_until),
                express: request.express.map(shared),
            }),
            _ => None,
        };
        Kept {
            held: record.body == Body::Held,
            asking,
            reply: record.reply.map(|reply| shared(reply.due)),
            hush: shared(record.reply_quiet),
        }
    }
}

/// A call that was not refused.
#[derive(Clone, Copy, Debug)]
pub struct Call {
    pub time: Time,
    pub heard: Option<Word>,
    pub said: Option<Word>,
    pub answer: Answer,
    /// The distances that it found.
    pub distances: [i64; HOSTS as usize],
    pub after: Seen,
}

impl Call {
    pub fn got(&self, source: u8, number: u16) -> bool {
        self.answer == Answer::Got { source, number }
    }
}

/// The calls of an end.
#[derive(Clone, Debug)]
pub struct Calls {
    pub host: u8,
    pub params: Params,
    pub calls: Vec<Call>,
}

impl Calls {
    /// What is kept after the calls up to a time.
    pub fn at(&self, time: Time) -> Option<&Seen> {
        let upto = self.calls.partition_point(|call| call.time <= time);
        Some(&self.calls[upto.checked_sub(1)?].after)
    }

    /// Each call with what was kept before it.
    pub fn pairs(&self) -> impl Iterator<Item = (&Seen, &Call)> {
        let before = self.calls.iter().map(|call| &call.after);
        std::iter::once(&Seen::NONE).chain(before).zip(&self.calls)
    }

    pub fn last_time(&self) -> Time {
        self.calls.last().map_or(Time::MIN, |call| call.time)
    }
}

/// A finished run: its source, its Δ, Λ and P, and the calls of its ends, the source's own first.
#[derive(Clone, Debug)]
pub struct Log {
    pub source: u8,
    pub way: Time,
    pub late: Time,
    pub period: Time,
    pub ends: Vec<Calls>,
}

impl Log {
    /// The calls about a number, in the order of time, a line for each: time, host, what was heard, answered and put out, what is kept.
    pub fn lines(&self, number: u16) -> String {
        let mut lines: Vec<(Time, String)> = vec![];
        for end in &self.ends {
            for (before, call) in end.pairs() {
                let about = |word: &Word| word.number == number || word.kind == SESS;
                let (was, now) = (before.of_number(number), call.after.of_number(number));
                let concerns = call.heard.is_some_and(|word| about(&word))
                    || call.said.is_some_and(|word| about(&word))
                    || was != now
                    || call.after.member != before.member;
                if concerns {
                    lines.push((call.time, line(end.host, call, now)));
                }
            }
        }
        lines.sort_by_key(|&(time, _)| time);
        lines.into_iter().map(|(_, line)| line).collect()
    }
}

fn line(host: u8, call: &Call, now: &Kept) -> String {
    let word = |word: Option<Word>| {
        word.map_or(String::from("-"), |word| {
            let Word {
                kind,
                sender,
                number,
                host,
            } = word;
            format!("{kind} of {sender}: {number} {host}")
        })
    };
    let (heard, said) = (word(call.heard), word(call.said));
    let kept = match (now.held, now.asking) {
        (true, _) => format!("held, reply {:?}, quiet until {}", now.reply, now.hush),
        (_, Some(asking)) => format!("{asking:?}"),
        _ => String::from("-"),
    };
    let Call { time, answer, .. } = call;
    format!("{time} {host} | heard {heard} | {answer:?} | said {said} | {kept}\n")
}
