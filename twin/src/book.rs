//! The service's book: whether a list of observed calls is a run of the service.

use std::collections::HashSet;

use crate::cue::Cue;
use crate::end::window_start;
use crate::end::{Answer, Event, Status};
use crate::message::{self, Message};
use crate::HOSTS;

const ENDS: usize = HOSTS as usize;

/// One call as it was observed: what went in, and the answer, the output buffer
/// and the end's status after it.
#[derive(Clone, Debug, PartialEq, Eq)]
pub struct Call {
    pub host: u8,
    pub event: Event,
    pub answer: Answer,
    pub out: Vec<u8>,
    pub status: Status,
}

/// Why a list is not a run of the service.
#[derive(Clone, Copy, Debug, PartialEq, Eq)]
pub enum Fault {
    /// It is none of the lists that the book speaks about: a host is above 7, or
    /// an unrefused Arrival brings bytes that no earlier Out put out. P5's probe may come
    /// from anywhere.
    NoSuchList,
    /// The end's status is not the book's.
    Status,
    /// The answer, its name or its cue is not the book's.
    Answer,
    /// Document 02, P9: a Late that is not "at most once since joining", not "with the source's bytes", or not of one of "the 64
    /// numbers just below the first original".
    Late,
    /// P11: "Over a sender's calls neither falls; lead is from trail to trail+63": a kind 24 of which that does not hold, or whose
    /// lead is not the last cue sent.
    Announce,
}

pub struct Book {
    status: [Status; ENDS],
    /// By source: the cue under each number, "filed for good".
    filed: [Vec<Cue>; ENDS],
    /// By reader and source: the numbers handed out since joining, in order.
    handed: [[Vec<u16>; ENDS]; ENDS],
    /// By reader and source: document 02, P7, "for each member and source from the first hand-out
    /// since joining, the highest number L that unlooped DATA, RQST, REPL and SESS [...] brought".
    highest: [[Option<u16>; ENDS]; ENDS],
    /// By reader and source: the numbers handed out as Late since joining. "Late cues lie outside its record of receptions", so the
    /// book's own promises never look here.
    late: [[Vec<u16>; ENDS]; ENDS],
    /// By sender: the latest trail and lead that it announced, which lie outside the book too.
    announced: [Option<(u16, u16)>; ENDS],
    /// What the Outs of the list put out so far.
    put_out: HashSet<Vec<u8>>,
}

/// "A list is a run of the service if after every call the end's status and the
/// answers just named, with their names and cues, are the book's." Otherwise the
/// place of the first call that is not, and why.
pub fn check(calls: &[Call]) -> Result<(), (usize, Fault)> {
    let mut book = Book::default();
    for (place, call) in calls.iter().enumerate() {
        book.enter(call).map_err(|fault| (place, fault))?;
    }
    Ok(())
}

impl Default for Book {
    /// "It starts with every host idle and nothing sent."
    fn default() -> Book {
        Book {
            status: [Status::Idle; ENDS],
            filed: Default::default(),
            handed: Default::default(),
            highest: Default::default(),
            late: Default::default(),
            announced: Default::default(),
            put_out: HashSet::new(),
        }
    }
}

impl Book {
    /// Feeds one call and compares what was observed with the book. After a fault
    /// the list is judged, and the book is of no more use.
    pub fn enter(&mut self, call: &Call) -> Result<(), Fault> {
        if call.host >= HOSTS {
            return Err(Fault::NoSuchList);
        }
        // "Refused: nothing changes."
        if !matches!(call.answer, Answer::Refused(_)) {
            self.enter_unrefused(call)?;
        }
        if call.status != self.status[usize::from(call.host)] {
            return Err(Fault::Status);
        }
        Ok(())
    }

    fn enter_unrefused(&mut self, call: &Call) -> Result<(), Fault> {
        let agrees = match &call.event {
            Event::Join | Event::Joined | Event::Leave | Event::Left | Event::Crash => {
                call.answer == self.membership(call.host, &call.event)
            }
            Event::Send(cue) => self.send(call, cue),
            Event::Arrival(bytes) => {
                // Document 02, P5: "In the service's runs such a datagram may come from
                // anywhere."
                if !bytes.is_empty() && !self.put_out.contains(bytes) {
                    return Err(Fault::NoSuchList);
                }
                self.arrival(call, bytes)
            }
            // "Other Arrivals, Fire, Report, events added later: nothing changes,
            // never Got."
            Event::Fire | Event::Report | Event::Fetch { .. } | Event::Announce => !is_got(call),
        };
        if !agrees {
            return Err(Fault::Answer);
        }
        if let Answer::Late { source, number } = call.answer {
            if !self.late(call, source, number) {
                return Err(Fault::Late);
            }
        }
        if call.event == Event::Announce && !self.announces(call) {
            return Err(Fault::Announce);
        }
        if let Some(bytes) = out_bytes(call) {
            self.put_out.insert(bytes.to_vec());
        }
        Ok(())
    }

    /// "the status moves as under Events, with Done; where it doesn't move,
    /// Ignored."
    fn membership(&mut self, host: u8, event: &Event) -> Answer {
        let host = usize::from(host);
        let Some(status) = self.status[host].after(event) else {
            return Answer::Ignored;
        };
        self.status[host] = status;
        // "'Since joining' counts from the last move to member, which clears the
        // host's handed-out numbers."
        if status == Status::Member {
            self.handed[host] = Default::default();
            self.highest[host] = Default::default();
            self.late[host] = Default::default();
        }
        Answer::Done
    }

    /// "for a member the cue is filed for good under the host's next number, from
    /// 0; Out, a DATA with that name and cue. Otherwise Ignored."
    fn send(&mut self, call: &Call, cue: &Cue) -> bool {
        let host = usize::from(call.host);
        if self.status[host] != Status::Member {
            return call.answer == Answer::Ignored;
        }
        let number = self.filed[host].len();
        self.filed[host].push(*cue);
        out_bytes(call)
            .and_then(|bytes| message::read(bytes).ok()?.message())
            .is_some_and(|m| {
                m.kind == message::DATA
                    && m.names[0].source == call.host
                    && usize::from(m.names[0].number) == number
                    && m.cues[0] == *cue
            })
    }

    /// "Got comes exactly when an original, or a repair where there is such a
    /// first, isn't looped and meets the limits. It has the message's name and the
    /// filed cue, and the number is now handed out."
    fn arrival(&mut self, call: &Call, bytes: &[u8]) -> bool {
        let Some(message) = message::read(bytes).ok().and_then(|read| read.message()) else {
            return !is_got(call);
        };
        let got = self.deliverable(call.host, &message);
        if let Some((source, number, _)) = got {
            self.handed[usize::from(call.host)][usize::from(source)].push(number);
        }
        self.raise_highest(call.host, &message);
        match got {
            Some((source, number, cue)) => {
                call.answer == Answer::Got { source, number } && call.out.starts_with(&cue.0)
            }
            None => !is_got(call),
        }
    }

    /// Document 02, P9: "Its requester hands it out as Late, written as Got is, [...] at most once since joining, and in the service's
    /// runs with the source's bytes": kind 23's name, filed, one of "the 64 numbers just below the first original it had since joining",
    /// which is the first one handed out.
    fn late(&mut self, call: &Call, source: u8, number: u16) -> bool {
        let (reader, from) = (usize::from(call.host), usize::from(source));
        let Event::Arrival(bytes) = &call.event else {
            return false;
        };
        let message = message::read(bytes).ok().and_then(|read| read.message());
        let named = message.is_some_and(|message| {
            let name = message.names.first();
            message.kind == message::LATE
                && name.is_some_and(|name| (name.source, name.number) == (source, number))
        });
        let first = self.handed[reader][from].first();
        let below = first.is_some_and(|&first| (0..first).rev().take(64).any(|n| n == number));
        let filed = self.filed[from].get(usize::from(number));
        let bytes = filed.is_some_and(|cue| call.out.starts_with(&cue.0));
        let late = &mut self.late[reader][from];
        let again = late.contains(&number) || self.handed[reader][from].contains(&number);
        late.push(number);
        self.status[reader] == Status::Member && named && below && bytes && !again
    }

    /// Document 02, P11: kind 24 with "its own first and last as trail and lead", last being the number sent last; "Over a sender's
    /// calls neither falls; lead is from trail to trail+63".
    fn announces(&mut self, call: &Call) -> bool {
        let host = usize::from(call.host);
        let Some(bytes) = out_bytes(call) else {
            return true;
        };
        let message = message::read(bytes).ok().and_then(|read| read.message());
        let Some(message) = message.filter(|m| m.kind == message::ANNC) else {
            return false;
        };
        let [trail, lead] = [0, 1].map(|place: usize| message.names[place].number);
        let before = self.announced[host].replace((trail, lead));
        let falls =
            before.is_some_and(|(old_trail, old_lead)| trail < old_trail || lead < old_lead);
        let sent_last = self.filed[host].len() == usize::from(lead) + 1;
        self.status[host] == Status::Member && !falls && sent_last && lead - trail <= 63
    }

    /// P7: "for each member and source from the first hand-out since joining, the highest number L
    /// that unlooped DATA, RQST, REPL and SESS (and what later counts as RQST) brought": P8's kind 21
    /// too, of which every message counts. Who answers one at once holds its cue, so it brings no
    /// number above L. P9's kinds 22 and 23 and P11's kind 24 count as none of these.
    fn raise_highest(&mut self, reader: u8, message: &Message) {
        let host = usize::from(reader);
        let others = [message::FTCH, message::LATE, message::ANNC].contains(&message.kind);
        if self.status[host] != Status::Member || message.sender == reader || others {
            return;
        }
        let names = message.names.iter().map(|name| (name.source, name.number));
        let reports = message
            .reports
            .iter()
            .map(|report| (report.source, report.last));
        for (source, number) in names.chain(reports) {
            let source = usize::from(source);
            if !self.handed[host][source].is_empty() {
                let highest = &mut self.highest[host][source];
                *highest = (*highest).max(Some(number));
            }
        }
    }

    /// The name and the filed cue that this arrival must hand out, if any.
    fn deliverable(&self, reader: u8, message: &Message) -> Option<(u8, u16, Cue)> {
        let name = *message.names.first()?;
        let source = usize::from(name.source);
        let handed = &self.handed[usize::from(reader)][source];
        // "the first one handed out from that source since joining, if any": the
        // first in time.
        let first = handed.first();

        // "an original is a DATA, a repair a REPL, looped if its sender is its
        // reader"
        let kind = match message.kind {
            message::DATA => true,
            message::REPL => first.is_some(),
            _ => false,
        };
        let looped = message.sender == reader;

        // "The limits: the reader is a member and not the source; the name is
        // filed; its number is not below the first one handed out from that source
        // since joining, if any, and not handed out since joining."; P7: "Got now also needs a
        // number not below L−63."
        let highest = self.highest[usize::from(reader)][source];
        let member = self.status[usize::from(reader)] == Status::Member;
        let cue = *self.filed[source].get(usize::from(name.number))?;
        let limits = member
            && reader != name.source
            && first.is_none_or(|&first| name.number >= first)
            && !handed.contains(&name.number)
            && highest.is_none_or(|highest| name.number >= window_start(highest));

        (kind && !looped && limits).then_some((name.source, name.number, cue))
    }
}

fn is_got(call: &Call) -> bool {
    matches!(call.answer, Answer::Got { .. })
}

/// The bytes that an Out put out: the first so many of the output.
fn out_bytes(call: &Call) -> Option<&[u8]> {
    match call.answer {
        Answer::Out(length) => call.out.get(..length),
        _ => None,
    }
}
