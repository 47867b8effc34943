//! The digest of an end: 64 bits of every field, docs/TRACES.md's last paragraph.

use crate::end::{Body, End, Record, Source, Status};

const START: u64 = 0x243F_6A88_85A3_08D3;

/// The digest of an end.
pub fn digest(end: &End) -> u64 {
    let mut digest = Digest(START);
    digest.end(end);
    digest.0
}

/// One step of xorshift64.
pub fn shifted(x: u64) -> u64 {
    let a = x ^ (x << 13);
    let b = a ^ (a >> 7);
    b ^ (b << 17)
}

struct Digest(u64);

impl Digest {
    fn mix(&mut self, value: impl Into<u64>) {
        self.0 = shifted(self.0 ^ value.into());
    }

    fn end(&mut self, end: &End) {
        self.mix(end.host);
        let p = &end.params;
        for parameter in [p.c1, p.c2, p.c3, p.d1, p.d2, p.d3] {
            self.mix(parameter);
        }
        self.mix(p.e);
        self.mix(end.clock);
        self.mix(match end.status {
            Status::Idle => 0u8,
            Status::Joining => 1,
            Status::Member => 2,
            Status::Leaving => 3,
            Status::Crashed => 4,
        });
        self.mix(end.next);
        for source in &end.sources {
            self.source(source);
        }
    }

    fn source(&mut self, source: &Source) {
        match (source.first, source.last) {
            (Some(first), Some(last)) => {
                self.mix(1u8);
                self.mix(first);
                self.mix(last);
            }
            _ => self.mix(0u8),
        }
        self.mix(source.missed);
        match source.pair {
            Some(pair) => {
                self.mix(1u8);
                self.mix(pair.requester);
                self.mix(pair.sender);
                self.mix(pair.number);
            }
            None => self.mix(0u8),
        }
        self.mix(source.distance);
        self.heard(source);
        for record in &source.names {
            self.record(record);
        }
        for attempt in &source.attempts {
            self.mix(attempt.tried);
            self.mix(u8::from(attempt.late));
        }
    }

    /// What was heard of a host, and its first original.
    fn heard(&mut self, source: &Source) {
        match source.heard {
            Some(heard) => {
                self.mix(1u8);
                self.mix(heard.stamp);
                self.mix(heard.at);
                self.mix(heard.sources);
            }
            None => self.mix(0u8),
        }
        match source.origin {
            Some(number) => {
                self.mix(1u8);
                self.mix(number);
            }
            None => self.mix(0u8),
        }
    }

    fn record(&mut self, record: &Record) {
        match record.body {
            Body::Nothing => self.mix(0u8),
            Body::Held => self.mix(1u8),
            Body::Waiting(request) => {
                self.mix(2u8);
                self.mix(request.round);
                self.mix(request.due);
                self.mix(request.quiet_until);
                match request.express {
                    Some(due) => {
                        self.mix(1u8);
                        self.mix(due);
                    }
                    None => self.mix(0u8),
                }
            }
        }
        for word in record.cue.0.chunks_exact(8) {
            self.mix(word.iter().fold(0, |w, &b| w << 8 | u64::from(b)));
        }
        match record.reply {
            Some(reply) => {
                self.mix(1u8);
                self.mix(reply.due);
                self.mix(reply.requester);
            }
            None => self.mix(0u8),
        }
        self.mix(record.reply_quiet);
    }
}
