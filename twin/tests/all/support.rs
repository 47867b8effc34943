//! What the tests share: a generator, message builders and a watched call.

use twin::cue::Cue;
use twin::end::{Answer, Body, End, Event, Params, Request, Status};
use twin::message::{self, Echo, Message, Name, Report};
use twin::{Draw, DRAWS, OUTPUT_LEN};

/// The byte that fills outputs before a call, to see which ones it wrote.
pub const FILL: u8 = 0xA5;

/// A small deterministic generator (splitmix64).
pub struct Rng(pub u64);

impl Rng {
    pub fn next(&mut self) -> u64 {
        self.0 = self.0.wrapping_add(0x9E37_79B9_7F4A_7C15);
        let mut z = self.0;
        z = (z ^ (z >> 30)).wrapping_mul(0xBF58_476D_1CE4_E5B9);
        z = (z ^ (z >> 27)).wrapping_mul(0x94D0_49BB_1331_11EB);
        z ^ (z >> 31)
    }

    pub fn below(&mut self, bound: u64) -> u64 {
        self.next() % bound
    }

    pub fn byte(&mut self) -> u8 {
        self.next() as u8
    }

    pub fn small(&mut self, bound: u8) -> u8 {
        self.below(bound.into()) as u8
    }

    pub fn number(&mut self, bound: u64) -> u16 {
        self.below(bound) as u16
    }

    /// True once in so many.
    pub fn once_in(&mut self, bound: u64) -> bool {
        self.below(bound) == 0
    }

    pub fn bytes(&mut self, length: usize) -> Vec<u8> {
        (0..length).map(|_| self.byte()).collect()
    }

    /// Draws, the least and the greatest often among them.
    pub fn draws(&mut self, count: usize) -> Vec<Draw> {
        let mut draw = || match self.below(8) {
            0 => 0,
            1 => Draw::MAX,
            _ => self.next() as Draw,
        };
        (0..count).map(|_| draw()).collect()
    }

    /// A cue in range, free bytes included.
    pub fn cue(&mut self) -> Cue {
        let mut cue = Cue::ZERO;
        for at in [0, 2, 4, 6] {
            let offset = self.below(4001) as i16 - 2000;
            cue.0[at..at + 2].copy_from_slice(&offset.to_be_bytes());
        }
        let lamp = self.below(1001) as u16;
        cue.0[8..10].copy_from_slice(&lamp.to_be_bytes());
        for byte in &mut cue.0[10..] {
            *byte = self.byte();
        }
        cue
    }
}

pub fn params([c1, c2, c3, d1, d2, d3]: [u8; 6]) -> Params {
    Params {
        c1,
        c2,
        c3,
        d1,
        d2,
        d3,
        e: 0,
    }
}

/// An idle end with the listing's parameters.
pub fn idle(host: u8) -> End {
    let (refused, end) = End::open(host, Params::STANDARD);
    assert_eq!(refused, None);
    end
}

pub fn member(host: u8) -> End {
    with_status(host, Status::Member)
}

/// An end brought to a status by its events, at clock 0.
pub fn with_status(host: u8, status: Status) -> End {
    let mut end = idle(host);
    let way: &[Event] = match status {
        Status::Idle => &[],
        Status::Joining => &[Event::Join],
        Status::Member => &[Event::Join, Event::Joined],
        Status::Leaving => &[Event::Join, Event::Leave],
        Status::Crashed => &[Event::Crash],
    };
    for event in way {
        assert_eq!(act(&mut end, event, 0), Answer::Done);
    }
    assert_eq!(end.status, status);
    end
}

pub fn data(source: u8, number: u16, cue: Cue) -> Message {
    named(message::DATA, source, (source, number, source), vec![cue])
}

pub fn rqst(sender: u8, source: u8, number: u16) -> Message {
    named(message::RQST, sender, (source, number, sender), vec![])
}

/// Document 02, P8's kind 21, to the host that is named.
pub fn xprs(sender: u8, source: u8, number: u16, host: u8) -> Message {
    named(message::XPRS, sender, (source, number, host), vec![])
}

/// Document 02, P9's kind 22, to the host tried.
pub fn ftch(sender: u8, source: u8, number: u16, host: u8) -> Message {
    named(message::FTCH, sender, (source, number, host), vec![])
}

/// P9's kind 23, its cue.
pub fn late(sender: u8, source: u8, number: u16, requester: u8, cue: Cue) -> Message {
    let name = (source, number, requester);
    named(message::LATE, sender, name, vec![cue])
}

pub fn repl(sender: u8, source: u8, number: u16, requester: u8, cue: Cue) -> Message {
    let name = (source, number, requester);
    named(message::REPL, sender, name, vec![cue])
}

fn named(kind: u8, sender: u8, (source, number, host): (u8, u16, u8), cues: Vec<Cue>) -> Message {
    Message {
        kind,
        sender,
        stamp: 0,
        names: vec![Name {
            source,
            number,
            host,
        }],
        cues,
        reports: vec![],
        echoes: vec![],
    }
}

/// A SESS with reports (source, last) and echoes (host, stamp, held ticks).
pub fn sess(sender: u8, stamp: u64, reports: &[(u8, u16)], echoes: &[(u8, u64, u64)]) -> Message {
    Message {
        kind: message::SESS,
        sender,
        stamp,
        names: vec![],
        cues: vec![],
        reports: reports
            .iter()
            .map(|&(source, last)| Report { source, last })
            .collect(),
        echoes: echoes
            .iter()
            .map(|&(host, stamp, held)| Echo { host, stamp, held })
            .collect(),
    }
}

/// The reader on what must not be a probe.
pub fn read(bytes: &[u8]) -> Result<Message, u8> {
    message::read(bytes).map(|read| read.message().expect("no probe"))
}

/// A written message's bytes.
pub fn bytes(message: &Message) -> Vec<u8> {
    let mut out = [FILL; OUTPUT_LEN];
    let length = message::write(message, &mut out).expect("a well-formed message");
    out[..length].to_vec()
}

pub fn act(end: &mut End, event: &Event, clock: u64) -> Answer {
    watched(end, event, clock, &[0; DRAWS], OUTPUT_LEN).0
}

pub fn hear(end: &mut End, message: &Message, clock: u64) -> Answer {
    act(end, &Event::Arrival(bytes(message)), clock)
}

/// A Send of the next number; its message's bytes.
pub fn send(end: &mut End, cue: Cue, clock: u64) -> Vec<u8> {
    put_out(end, &Event::Send(cue), clock)
}

/// An event that must answer Out; its message's bytes.
pub fn put_out(end: &mut End, event: &Event, clock: u64) -> Vec<u8> {
    let (answer, out) = watched(end, event, clock, &[0; DRAWS], OUTPUT_LEN);
    match answer {
        Answer::Out(length) => out[..length].to_vec(),
        other => panic!("{event:?} at {clock} answers {other:?}"),
    }
}

/// One call, with what holds of every call: a refusal changes nothing; an
/// unrefused event sets the clock, except on a crashed end, where nothing
/// changes; a sound end stays sound; only the answer's output bytes change; what
/// is put out reads back.
pub fn watched(
    end: &mut End,
    event: &Event,
    clock: u64,
    draws: &[Draw],
    output: usize,
) -> (Answer, Vec<u8>) {
    let before = end.clone();
    let mut out = vec![FILL; output];
    let answer = end.event(event, clock, draws, &mut out);
    let wrote = match answer {
        Answer::Refused(_) => {
            assert_eq!(*end, before);
            0
        }
        Answer::Out(length) => {
            assert!(read(&out[..length]).is_ok());
            length
        }
        Answer::Got { .. } | Answer::Late { .. } => 24,
        Answer::Clash { .. }
        | Answer::Exhausted
        | Answer::Done
        | Answer::Ignored
        | Answer::Nothing => 0,
    };
    assert!(out[wrote..].iter().all(|&byte| byte == FILL));
    if !matches!(answer, Answer::Refused(_)) {
        if before.status == Status::Crashed {
            assert_eq!(answer, Answer::Ignored);
            assert_eq!(*end, before);
        } else {
            assert_eq!(end.clock, clock);
        }
        assert!(end.sound());
    }
    (answer, out)
}

/// A name's waiting request, which must be there.
pub fn request(end: &End, source: usize, number: usize) -> Request {
    match end.sources[source]
        .kept(number as u16)
        .map(|kept| kept.body)
    {
        Some(Body::Waiting(request)) => request,
        other => panic!("{source},{number} has {other:?}"),
    }
}
