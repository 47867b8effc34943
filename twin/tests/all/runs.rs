//! Random runs of eight ends with a lossy, repeating, reordering network: none
//! leaves the service.

use twin::book::{Book, Call};
use twin::cue::Cue;
use twin::end::{Answer, End, Event, Params, Status};
use twin::message;
use twin::{CLOCK_MAX, DRAWS, OUTPUT_LEN};

use crate::support::*;

/// What a run has seen, so that a test of nothing shows.
#[derive(Default, Debug)]
struct Seen {
    originals: u32,
    repairs: u32,
    requests: u32,
    replies: u32,
    express: u32,
    at_once: u32,
    reports: u32,
    left: u32,
    retired: u32,
    missed: u32,
    refused: [u32; 12],
}

/// By source: the numbers handed out to one end since joining, in order.
type Handed = [Vec<u16>; 8];

/// "Per source the end counts the numbers retired without a cue since joining, those passed over in one rise included; this equals the
/// count taken over the history of events": of the numbers from the first one handed out those below first that never were.
fn counted(end: &End, handed: &Handed) {
    for (host, (source, handed)) in (0..).zip(end.sources.iter().zip(handed)) {
        let missed = match (handed.first(), source.first) {
            (Some(&start), Some(first)) => (start..first).filter(|n| !handed.contains(n)).count(),
            (start, first) => {
                assert!(start.is_none() && (first.is_none() || host == end.host));
                0
            }
        };
        assert_eq!(source.missed as usize, missed);
    }
}

fn admissible(rng: &mut Rng) -> Params {
    loop {
        let mut p = [0; 6];
        p.fill_with(|| rng.small(33));
        let e = rng.number(1001);
        let e = [0, 5, e][rng.below(3) as usize];
        let p = Params { e, ..params(p) };
        if End::open(0, p).0.is_none() {
            return p;
        }
    }
}

fn event(rng: &mut Rng, status: Status, net: &[Vec<u8>], calm: u64) -> Event {
    match status {
        // Mostly on the way to membership, else anything.
        Status::Idle if rng.below(4) > 0 => Event::Join,
        Status::Joining if rng.below(4) > 0 => Event::Joined,
        Status::Leaving if rng.below(4) > 0 => Event::Left,
        _ => match rng.below(calm) {
            0 => Event::Leave,
            1 => Event::Join,
            2 => Event::Joined,
            3 => Event::Left,
            4 if rng.once_in(8) => Event::Crash,
            n if n % 8 == 5 => {
                let mut cue = rng.cue();
                if rng.once_in(20) {
                    cue = Cue::with_focus(-2001);
                }
                Event::Send(cue)
            }
            n if n % 8 == 6 => Event::Report,
            n if n % 8 == 7 => Event::Fire,
            _ => Event::Arrival(arriving(rng, net)),
        },
    }
}

/// An earlier message, mostly a late one, or bytes that the reader refuses.
fn arriving(rng: &mut Rng, net: &[Vec<u8>]) -> Vec<u8> {
    // A probe comes from anywhere.
    if net.is_empty() || rng.once_in(30) {
        return vec![];
    }
    let length = net.len() as u64;
    let back = if rng.once_in(5) {
        rng.below(length)
    } else {
        rng.below(length.min(12))
    };
    let mut bytes = net[(length - 1 - back) as usize].clone();
    if rng.once_in(20) {
        let at = rng.below(bytes.len() as u64) as usize;
        bytes[at] = rng.byte();
        if read(&bytes).is_ok() {
            bytes.truncate(at.max(1));
        }
    }
    bytes
}

fn run(seed: u64, calls: u32, calm: u64, start: u64, pace: u64, seen: &mut Seen) {
    let mut rng = Rng(seed);
    let mut ends: Vec<End> = (0..8)
        .map(|host| End::open(host, admissible(&mut rng)).1)
        .collect();
    let mut book = Book::default();
    let mut net: Vec<Vec<u8>> = Vec::new();
    let mut handed: [Handed; 8] = Default::default();
    let mut now = start;
    for place in 0..calls {
        now += rng.below(pace);
        let host = rng.small(8);
        let end = &mut ends[usize::from(host)];
        let event = event(&mut rng, end.status, &net, calm);
        // Sometimes a clock, an output or draws that are refused.
        let clock = match rng.below(40) {
            0 => CLOCK_MAX + 1 + rng.below(2),
            1 => rng.below(now + 1),
            _ => now,
        };
        let output = OUTPUT_LEN - usize::from(rng.once_in(40));
        let draws = DRAWS - usize::from(rng.once_in(40));
        let draws = rng.draws(draws);
        let firsts = end.sources.map(|source| source.first);
        let (answer, out) = watched(end, &event, clock, &draws, output);
        for (first, source) in firsts.iter().zip(&end.sources) {
            seen.retired += u32::from(first.is_some() && source.first > *first);
            seen.missed = seen.missed.max(source.missed);
        }
        let handed = &mut handed[usize::from(host)];
        match answer {
            Answer::Got { source, number } => handed[usize::from(source)].push(number),
            Answer::Done if end.sources.iter().all(|source| source.first.is_none()) => {
                *handed = Default::default();
            }
            _ => {}
        }
        counted(end, handed);
        let call = Call {
            host,
            event,
            answer,
            out,
            status: end.status,
        };
        let verdict = book.enter(&call);
        assert_eq!(verdict, Ok(()), "run {seed}, call {place}: {call:?}");
        note(seen, &call);
        if let Answer::Out(length) = answer {
            net.push(call.out[..length].to_vec());
        }
    }
}

fn note(seen: &mut Seen, call: &Call) {
    match (&call.event, call.answer) {
        (_, Answer::Refused(number)) => seen.refused[usize::from(number)] += 1,
        (Event::Arrival(bytes), Answer::Got { .. }) => match bytes[0] {
            message::DATA => seen.originals += 1,
            _ => seen.repairs += 1,
        },
        (Event::Fire, Answer::Out(16)) if call.out[0] == message::XPRS => seen.express += 1,
        (Event::Fire, Answer::Out(16)) => seen.requests += 1,
        (Event::Arrival(bytes), Answer::Out(40)) if !bytes.is_empty() => seen.at_once += 1,
        (Event::Fire, Answer::Out(40)) => seen.replies += 1,
        (Event::Report, Answer::Out(_)) => seen.reports += 1,
        (Event::Left, Answer::Done) => seen.left += 1,
        _ => (),
    }
}

#[test]
fn eight_ends() {
    let mut seen = Seen::default();
    for seed in 0..60 {
        // Between restless membership and hardly any change of it.
        let calm = [16, 64, 400, 4000][seed as usize % 4];
        let pace = [3, 60, 900][seed as usize % 3];
        run(seed, 2500, calm, 0, pace, &mut seen);
    }
    // Long enough for windows to move on.
    run(999, 8000, 4000, 0, 60, &mut seen);
    run(998, 40_000, 4000, 0, 60, &mut seen);
    // At the last clocks there are, where dues lie beyond them.
    run(1000, 2500, 400, CLOCK_MAX - 50_000, 25, &mut seen);
    assert!(seen.originals > 1000, "{seen:?}");
    assert!(seen.repairs > 100, "{seen:?}");
    assert!(seen.requests > 1000, "{seen:?}");
    assert!(seen.replies > 100, "{seen:?}");
    assert!(seen.reports > 100, "{seen:?}");
    assert!(seen.express > 20 && seen.at_once > 0, "{seen:?}");
    assert!(seen.left > 100, "{seen:?}");
    assert!(seen.retired > 100 && seen.missed > 10, "{seen:?}");
    for number in [1, 2, 4, 5, 6, 8, 9, 10, 11] {
        assert!(seen.refused[number] > 0, "{number}: {seen:?}");
    }
    // Question 3 never says no: an end leaves sound states behind. 65,536 cues are not sent here.
    assert_eq!((seen.refused[3], seen.refused[7]), (0, 0));
}
