//! States nobody can reach: any sound one keeps every event's promises, and any
//! state whatever can be asked for its soundness.

use twin::cue::Cue;
use twin::end::place_of;
use twin::end::{
    Answer, Attempt, Body, End, Event, Heard, Pair, Params, Record, Reply, Request, Source, Status,
    TIME_LIMIT,
};
use twin::message::Message;
use twin::{CLOCK_MAX, DRAWS, OUTPUT_LEN};

use crate::support::*;

const STATUSES: [Status; 5] = [
    Status::Member,
    Status::Idle,
    Status::Joining,
    Status::Leaving,
    Status::Crashed,
];

/// Times on both sides of the clock, up to the limit.
fn time(rng: &mut Rng, clock: u64) -> u64 {
    match rng.below(4) {
        0 => rng.below(TIME_LIMIT),
        1 => TIME_LIMIT - 1,
        _ => (clock + rng.below(2000)).saturating_sub(1000),
    }
}

fn other_than(rng: &mut Rng, hosts: &[u8]) -> u8 {
    loop {
        let host = rng.small(8);
        if !hosts.contains(&host) {
            return host;
        }
    }
}

fn sound_end(rng: &mut Rng) -> End {
    let host = rng.small(8);
    let mut end = idle(host);
    let mut p = [0; 6];
    p.fill_with(|| rng.small(33));
    end.params = params(p);
    end.params.e = rng.number(1001);
    end.clock = match rng.below(3) {
        0 => CLOCK_MAX - rng.below(100),
        1 => rng.below(CLOCK_MAX),
        _ => rng.below(3000),
    };
    end.next = match rng.below(3) {
        0 => rng.below(65) as u32,
        1 => 65_536 - rng.below(3) as u32,
        _ => rng.below(65_537) as u32,
    };
    end.status = STATUSES[rng.below(8).saturating_sub(3) as usize];
    if end.status != Status::Member {
        return end;
    }
    for source in 0..8 {
        let own = source == host;
        if !own {
            end.sources[usize::from(source)].distance = 1 + rng.below(1000);
            if rng.once_in(2) {
                end.sources[usize::from(source)].heard = Some(Heard {
                    stamp: rng.below(CLOCK_MAX + 1),
                    at: rng.below(end.clock + 1),
                    sources: rng.byte(),
                });
            }
        }
        let pair = &mut end.sources[usize::from(source)].pair;
        if !rng.once_in(3) {
            *pair = Some(Pair {
                requester: if rng.once_in(2) { host } else { rng.small(8) },
                sender: other_than(rng, &[host]),
                number: any_number(rng),
            });
        }
        let paired = pair.is_some();
        if rng.once_in(3) || (own && end.next == 0) {
            continue;
        }
        let last = match rng.below(3) {
            _ if own => (end.next - 1) as u16,
            0 => rng.number(64),
            1 => 65_535 - rng.number(3),
            _ => rng.number(65_536),
        };
        let back = match rng.once_in(3) {
            true => 63,
            false => rng.number(64),
        };
        let first = last - back.min(last);
        end.sources[usize::from(source)].first = Some(first);
        end.sources[usize::from(source)].last = Some(last);
        end.sources[usize::from(source)].missed = rng.below(u64::from(first) + 1) as u32;
        if !own {
            fetched(rng, host, &mut end.sources[usize::from(source)]);
        }
        for number in first..=last {
            let mut record = Record::EMPTY;
            record.reply_quiet = time(rng, end.clock);
            if own || rng.once_in(2) {
                record.body = Body::Held;
                record.cue = rng.cue();
                if rng.once_in(2) {
                    record.reply = Some(Reply {
                        due: time(rng, end.clock),
                        requester: other_than(rng, &[host, source]),
                    });
                }
            } else {
                record.body = Body::Waiting(Request {
                    round: 1 + rng.small(16),
                    due: time(rng, end.clock),
                    quiet_until: time(rng, end.clock),
                    express: match paired && rng.once_in(2) {
                        true => Some(time(rng, end.clock)),
                        false => None,
                    },
                });
            }
            end.sources[usize::from(source)].names[place_of(number)] = record;
        }
    }
    assert!(end.sound());
    end
}

/// Document 02, P9: a first original's number, "at most first", and tries and Late marks of the 64 numbers below it.
fn fetched(rng: &mut Rng, host: u8, source: &mut Source) {
    let back = match rng.once_in(3) {
        true => rng.number(200),
        false => 0,
    };
    let origin = source.first.map_or(0, |first| first.saturating_sub(back));
    source.origin = Some(origin);
    for number in (0..origin).rev().take(64) {
        let tried = rng.byte() & rng.byte() & !(1 << host);
        let late = tried != 0 && rng.once_in(3);
        source.attempts[place_of(number)] = Attempt { tried, late };
    }
}

/// Any cue number, the low and the highest ones often.
fn any_number(rng: &mut Rng) -> u16 {
    match rng.below(4) {
        0 => rng.number(130),
        1 => 65_535 - rng.number(130),
        _ => rng.number(65_536),
    }
}

/// A well-formed message of any kind, of a kind that no end may ever have sent.
fn any_message(rng: &mut Rng) -> Message {
    let (source, number, cue) = (rng.small(8), any_number(rng), rng.cue());
    let sender = other_than(rng, &[source]);
    let mut message = match rng.below(7) {
        5 => ftch(sender, source, number, other_than(rng, &[sender])),
        6 => late(
            sender,
            source,
            number,
            other_than(rng, &[source, sender]),
            cue,
        ),
        4 => xprs(sender, source, number, other_than(rng, &[sender])),
        0 => data(source, number, cue),
        1 => rqst(sender, source, number),
        2 => {
            let requester = other_than(rng, &[source, sender]);
            let sender = if rng.once_in(2) { source } else { sender };
            repl(sender, source, number, requester, cue)
        }
        _ => {
            let mut reports = Vec::new();
            let mut echoes = Vec::new();
            for host in 0..8 {
                if rng.once_in(2) {
                    reports.push((host, any_number(rng)));
                }
                if host != sender && rng.once_in(2) {
                    echoes.push((host, rng.below(CLOCK_MAX + 1), rng.below(5000)));
                }
            }
            sess(sender, 0, &reports, &echoes)
        }
    };
    message.stamp = rng.below(CLOCK_MAX + 1);
    message
}

fn any_event(rng: &mut Rng) -> Event {
    match rng.below(16) {
        14 => Event::Fetch {
            source: any(rng) as u8,
            number: any(rng) as u16,
        },
        15 => Event::Fetch {
            source: rng.small(8),
            number: any_number(rng),
        },
        0 => Event::Join,
        1 => Event::Joined,
        2 => Event::Leave,
        3 => Event::Left,
        4 => Event::Crash,
        5 => Event::Send(rng.cue()),
        6 | 7 => Event::Fire,
        8 => Event::Report,
        _ => Event::Arrival(bytes(&any_message(rng))),
    }
}

#[test]
fn sound_states_stay_sound() {
    // `watched` holds every call to the frame; here it must not refuse either,
    // except a full member's Send.
    let mut rng = Rng(2);
    for _ in 0..6000 {
        let mut end = sound_end(&mut rng);
        for _ in 0..4 {
            let event = any_event(&mut rng);
            let clock = CLOCK_MAX.min(end.clock + rng.below(3000));
            let draws = rng.draws(DRAWS);
            let full = end.status == Status::Member && end.next == 65_536;
            let (answer, _) = watched(&mut end, &event, clock, &draws, OUTPUT_LEN);
            match answer {
                Answer::Refused(number) => {
                    assert!(number == 7 && full && matches!(event, Event::Send(_)))
                }
                Answer::Nothing => assert_eq!(event, Event::Fire),
                _ => (),
            }
        }
    }
}

/// A value that is often small, often near a limit, sometimes anything.
fn any(rng: &mut Rng) -> u64 {
    match rng.below(6) {
        0 => rng.next(),
        1 => u64::MAX - rng.below(2),
        2 => CLOCK_MAX - 1 + rng.below(3),
        3 => TIME_LIMIT - 1 + rng.below(2),
        _ => rng.below(70),
    }
}

fn maybe<T>(rng: &mut Rng, value: impl FnOnce(&mut Rng) -> T) -> Option<T> {
    if rng.once_in(2) {
        Some(value(rng))
    } else {
        None
    }
}

fn any_record(rng: &mut Rng) -> Record {
    let mut cue = Cue::ZERO;
    cue.0.copy_from_slice(&rng.bytes(24));
    Record {
        body: match rng.below(3) {
            0 => Body::Nothing,
            1 => Body::Held,
            _ => Body::Waiting(Request {
                round: any(rng) as u8,
                due: any(rng),
                quiet_until: any(rng),
                express: maybe(rng, any),
            }),
        },
        cue,
        reply: maybe(rng, |rng| Reply {
            due: any(rng),
            requester: any(rng) as u8,
        }),
        reply_quiet: any(rng),
    }
}

fn any_pair(rng: &mut Rng) -> Pair {
    Pair {
        requester: any(rng) as u8,
        sender: any(rng) as u8,
        number: any(rng) as u16,
    }
}

fn any_attempt(rng: &mut Rng) -> Attempt {
    Attempt {
        tried: if rng.once_in(2) { 0 } else { rng.byte() },
        late: rng.once_in(4),
    }
}

fn any_source(rng: &mut Rng) -> Source {
    Source {
        first: maybe(rng, |rng| any(rng) as u16),
        last: maybe(rng, |rng| any(rng) as u16),
        missed: any(rng) as u32,
        pair: maybe(rng, any_pair),
        distance: any(rng),
        heard: maybe(rng, |rng| Heard {
            stamp: any(rng),
            at: any(rng),
            sources: rng.byte(),
        }),
        names: std::array::from_fn(|_| any_record(rng)),
        origin: maybe(rng, |rng| any(rng) as u16),
        attempts: std::array::from_fn(|_| any_attempt(rng)),
    }
}

#[test]
fn any_state_can_be_asked() {
    // One part of a sound state replaced by anything: the answer is 3 exactly if
    // the state is no longer sound, and nothing panics.
    let mut rng = Rng(3);
    let (mut sound, mut unsound) = (0, 0);
    for _ in 0..6000 {
        let mut end = sound_end(&mut rng);
        let (s, n) = (rng.small(8) as usize, rng.small(64) as usize);
        match rng.below(15) {
            13 => end.sources[s].origin = maybe(&mut rng, |rng| any(rng) as u16),
            14 => end.sources[s].attempts[n] = any_attempt(&mut rng),
            11 => end.params.e = any(&mut rng) as u16,
            12 => end.sources[s].pair = maybe(&mut rng, any_pair),
            0 => end.host = any(&mut rng) as u8,
            1 => end.params.c1 = any(&mut rng) as u8,
            2 => end.params.d3 = any(&mut rng) as u8,
            3 => end.clock = any(&mut rng),
            4 => end.status = STATUSES[rng.below(5) as usize],
            5 => end.next = any(&mut rng) as u32,
            6 => end.sources[s] = any_source(&mut rng),
            7 => end.sources[s].distance = any(&mut rng),
            8 => end.sources[s].last = maybe(&mut rng, |rng| any(rng) as u16),
            9 => end.sources[s].missed = any(&mut rng) as u32,
            _ => end.sources[s].names[n] = any_record(&mut rng),
        }
        let event = any_event(&mut rng);
        let expected = end.sound();
        let (answer, _) = watched(&mut end, &event, CLOCK_MAX, &[7; DRAWS], OUTPUT_LEN);
        assert_eq!(answer != Answer::Refused(3), expected);
        if expected {
            sound += 1;
        } else {
            unsound += 1;
        }
    }
    assert!(sound > 500 && unsound > 500);
}

#[test]
fn anything_at_all_can_be_asked() {
    let mut rng = Rng(4);
    for _ in 0..300 {
        let mut p = [0; 6];
        p.fill_with(|| rng.byte());
        let mut end = End {
            host: any(&mut rng) as u8,
            params: Params {
                e: any(&mut rng) as u16,
                ..params(p)
            },
            clock: any(&mut rng),
            status: STATUSES[rng.below(5) as usize],
            next: any(&mut rng) as u32,
            sources: std::array::from_fn(|_| any_source(&mut rng)),
        };
        let event = any_event(&mut rng);
        let draws = vec![0; any(&mut rng) as usize % 130];
        let output = any(&mut rng) as usize % 300;
        let clock = any(&mut rng);
        let (answer, _) = watched(&mut end, &event, clock, &draws, output);
        assert!(matches!(answer, Answer::Refused(1..=3)));
    }
}
