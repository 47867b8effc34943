//! An end of a run, with the log of its calls.

use super::log::{Call, Calls, Seen, Word};
use super::Time;
use crate::end::{Answer, End, Event, Params};
use crate::{Draw, DRAWS, OUTPUT_LEN};

pub struct Member {
    pub end: End,
    /// Its clock is so far ahead of the time that all share.
    pub offset: Time,
    pub calls: Vec<Call>,
}

impl Member {
    /// A member since time 0.
    pub fn joined(host: u8, params: Params, offset: Time, source: u8) -> Member {
        let mut member = Member {
            end: End::open(host, params).1,
            offset,
            calls: vec![],
        };
        for event in [Event::Join, Event::Joined] {
            member.call(&event, 0, &[0; DRAWS], source);
        }
        member
    }

    /// An event at a time, and the bytes that it puts out; what it says of the source is kept, unless it is refused.
    pub fn call(
        &mut self,
        event: &Event,
        time: Time,
        draws: &[Draw],
        source: u8,
    ) -> Option<Vec<u8>> {
        let mut out = [0; OUTPUT_LEN];
        let clock = (time + self.offset) as u64;
        let distances = self.end.sources.map(|one| one.distance as i64);
        let answer = self.end.event(event, clock, draws, &mut out);
        let heard = match event {
            Event::Arrival(bytes) => Word::of(bytes, source),
            _ => None,
        };
        let put_out = match answer {
            Answer::Refused(_) => return None,
            Answer::Out(length) => Some(out[..length].to_vec()),
            _ => None,
        };
        let said = put_out.as_ref().and_then(|bytes| Word::of(bytes, source));
        self.calls.push(Call {
            time,
            heard,
            said,
            answer,
            distances,
            after: Seen::of(&self.end, source, self.offset),
        });
        put_out
    }

    /// When the first of its waits is due.
    pub fn due(&self) -> Option<Time> {
        let due = self.end.first_due()?;
        Some(due as Time - self.offset)
    }

    pub fn finished(self) -> Calls {
        Calls {
            host: self.end.host,
            params: self.end.params,
            calls: self.calls,
        }
    }
}
