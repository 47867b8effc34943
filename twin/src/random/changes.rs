//! States that no run leads to: one field of an end changed by `set` lines, at or past the edge of what is sound.

use super::stage::Spot;
use super::Run;
use crate::end::{Attempt, Heard, Pair, Params, Reply, Request, Status, TIME_LIMIT};
use crate::trace::{At, Field};
use crate::{CLOCK_MAX, HOSTS};

type Change = fn(&mut Run, usize);

/// One row for each field of an end.
const CHANGES: [(u64, Change); 22] = [
    (3, next),
    (2, clock),
    (2, parameter),
    (2, host),
    (2, status),
    (4, span),
    (4, missed),
    (5, pair),
    (4, express),
    (4, distance),
    (4, heard),
    (4, origin),
    (6, attempt),
    (1, original_of_oneself),
    (2, body),
    (2, round),
    (2, due),
    (2, quiet),
    (5, requester),
    (2, reply_due),
    (3, hush),
    (2, cue_byte),
];

impl Run {
    /// Changes one field of the end at a place.
    pub fn change(&mut self, place: usize) {
        let change = self.dice.weighted(&CHANGES);
        change(self, place);
    }

    /// A time at the edge of what a state may hold.
    fn limit(&mut self) -> u64 {
        TIME_LIMIT - 1 + self.dice.below(2)
    }

    fn own_clock(&self, place: usize) -> u64 {
        CLOCK_MAX.min(self.stage.ends[place].clock)
    }

    /// A record: mostly one inside the span of an open source, where one clause alone decides.
    fn spot(&mut self, place: usize) -> At {
        let source = self.likely_source(place);
        let number = match self.stage.span(place, source) {
            Some((first, last)) if first <= last && !self.dice.one_in(8) => {
                first + self.dice.number(u64::from(last - first) + 1)
            }
            _ => self.dice.number(64),
        };
        Spot { source, number }.at()
    }

    /// A spot of another's source, where one is open.
    fn other_spot(&mut self, place: usize) -> At {
        let me = self.stage.ends[place].host;
        let spot = self.spot(place);
        let open = self.stage.open_sources(place);
        match open.iter().find(|&&source| source != me) {
            Some(&source) if spot.source == me && !self.dice.one_in(4) => {
                let number = self.stage.span(place, source).map_or(0, |span| span.1);
                Spot { source, number }.at()
            }
            _ => spot,
        }
    }
}

fn next(run: &mut Run, place: usize) {
    let near = run.stage.ends[place].next;
    let value = run.dice.pick(&[
        65_535,
        65_536,
        65_537,
        u32::MAX,
        64,
        near.saturating_sub(1),
        near.saturating_add(1),
        0,
    ]);
    run.stage.set(place, Field::Next(value));
}

fn clock(run: &mut Run, place: usize) {
    let value = run.dice.pick(&[1 << 48, u64::MAX, CLOCK_MAX, 0]);
    run.stage.set(place, Field::Clock(value));
}

fn parameter(run: &mut Run, place: usize) {
    let which = run.dice.below(8) as usize;
    let value = run.dice.pick(&[33, 32, 255, 0]);
    let mut p = run.stage.ends[place].params;
    if which >= 6 {
        // "E above 1000" (document 02, P8).
        p.e = run.dice.pick(&[0, 1, 1000, 1001, 1001, 65_535]);
        return run.stage.set(place, Field::Params(p));
    }
    let Params {
        c1,
        c2,
        c3,
        d1,
        d2,
        d3,
        e: _,
    } = &mut p;
    *[c1, c2, c3, d1, d2, d3][which] = value;
    run.stage.set(place, Field::Params(p));
}

fn host(run: &mut Run, place: usize) {
    let value = run.dice.pick(&[0, 1, 2, 3, 4, 5, 6, 7, HOSTS, 9, 255]);
    run.stage.set(place, Field::Host(value));
}

fn status(run: &mut Run, place: usize) {
    use Status::*;
    let value = run.dice.pick(&[Idle, Joining, Member, Leaving, Crashed]);
    run.stage.set(place, Field::Status(value));
}

fn span(run: &mut Run, place: usize) {
    let source = run.likely_source(place);
    let (first, last) = run.stage.span(place, source).unwrap_or((0, 0));
    let any = (run.dice.number(64), run.dice.number(128));
    let value = run.dice.pick(&[
        None,
        Some((last, first)),
        Some((first, first.saturating_add(63))),
        Some((first, first.saturating_add(64))),
        Some((last.saturating_sub(64), last)),
        Some((first, 65_535)),
        Some((0, 63)),
        Some((first, last.wrapping_add(1))),
        Some((first, last.wrapping_sub(1))),
        Some((first.wrapping_add(1), last)),
        // The same places, another round of them.
        Some((first.wrapping_add(64), last.wrapping_add(64))),
        Some(any),
    ]);
    let field = match value {
        None => Field::Closed(source),
        Some((first, last)) => Field::Span {
            source,
            first,
            last,
        },
    };
    run.stage.set(place, field);
    // Mostly with the first original's number that suits it, so that the span's own clause decides.
    let me = run.stage.ends[place].host;
    if source != me && !run.dice.one_in(4) {
        let field = match value {
            None => Field::NoOrigin(source),
            Some((first, _)) => Field::Origin(source, first),
        };
        run.stage.set(place, field);
    }
}

/// "keeps that first original's number, at most first, exactly beside another's first" (document 02, P9).
fn origin(run: &mut Run, place: usize) {
    let source = run.likely_source(place);
    let first = run.stage.span(place, source).map_or(0, |span| span.0);
    let number = run.dice.pick(&[
        None,
        Some(0),
        Some(first),
        Some(first),
        Some(first.saturating_sub(1)),
        Some(first.saturating_add(1)),
        Some(first.saturating_add(1)),
        Some(first.saturating_sub(64)),
        Some(65_535),
    ]);
    let field = match number {
        None => Field::NoOrigin(source),
        Some(number) => Field::Origin(source, number),
    };
    run.stage.set(place, field);
}

/// The own source with a first original's number, or with a try.
fn original_of_oneself(run: &mut Run, place: usize) {
    let source = run.stage.ends[place].host.min(7);
    let first = run.stage.span(place, source).map_or(0, |span| span.0);
    match run.dice.one_in(2) {
        true => run.stage.set(place, Field::Origin(source, first)),
        false => {
            let number = run.dice.number(64);
            let attempt = Attempt {
                tried: run.dice.byte(),
                late: run.dice.one_in(2),
            };
            let at = Spot { source, number }.at();
            run.stage.set(place, Field::Attempt(at, attempt));
        }
    }
}

/// "tries only of other hosts at fetchable numbers, Late marks only beside a try" (document 02, P9): at a fetchable number or just past
/// them, with and without oneself, with and without a try.
fn attempt(run: &mut Run, place: usize) {
    let me = run.stage.ends[place].host.min(7);
    let source = run.likely_source(place);
    let origin = run.stage.origin(place, source).unwrap_or(0);
    let below = 1 + run.dice.number(64);
    let below = run.dice.pick(&[1, below, 64, 65, 0]);
    let number = match run.dice.one_in(6) {
        true => origin.saturating_add(below),
        false => origin.saturating_sub(below),
    };
    let own = 1 << me;
    let others = run.dice.byte() & !own;
    let tried = run.dice.pick(&[others, others, 0, own, others | own, 255]);
    let late = run.dice.one_in(2);
    let at = Spot { source, number }.at();
    run.stage
        .set(place, Field::Attempt(at, Attempt { tried, late }));
}

/// "that count at most first, 0 without one" (document 02, P7).
fn missed(run: &mut Run, place: usize) {
    let source = run.likely_source(place);
    let first = u32::from(run.stage.span(place, source).map_or(0, |span| span.0));
    let value = run.dice.pick(&[
        0,
        1,
        first.saturating_sub(1),
        first,
        first,
        first + 1,
        first + 1,
        65_535,
        65_536,
        u32::MAX,
    ]);
    run.stage.set(place, Field::Missed(source, value));
}

/// "a kept pair's sender is always another, and non-members keep none" (document 02, P8).
fn pair(run: &mut Run, place: usize) {
    let me = run.stage.ends[place].host;
    let source = run.likely_source(place);
    let other = run.dice.host_but(&[me]);
    let (requester, sender) = run.dice.pick(&[
        (me, other),
        (other, other),
        (other, source),
        (source, other),
        (me, me),
        (other, me),
        (HOSTS, other),
        (255, other),
        (me, HOSTS),
        (me, 255),
    ]);
    let number = run.name_near(place, source).number;
    let pair = Pair {
        requester,
        sender,
        number,
    };
    let field = match run.dice.one_in(8) {
        true => Field::NoPair(source),
        false => Field::Pair(source, pair),
    };
    run.stage.set(place, field);
}

/// "a sound state has one only beside a request and with a kept pair"; "due and quiet times are below 2^48+2^32".
fn express(run: &mut Run, place: usize) {
    let spot = run.other_spot(place);
    let me = run.stage.ends[place].host;
    let (now, limit) = (run.own_clock(place), run.limit());
    let express = Some(run.dice.pick(&[now, limit]));
    let request = Request {
        express,
        ..request(1, now, 0)
    };
    run.stage.set(place, Field::Waits(spot, request));
    let source = spot.source;
    if run.dice.one_in(3) {
        run.stage.set(place, Field::NoPair(source));
    } else {
        let pair = Pair {
            requester: run.dice.small(8),
            sender: run.dice.host_but(&[me]),
            number: 0,
        };
        run.stage.set(place, Field::Pair(source, pair));
    }
}

fn distance(run: &mut Run, place: usize) {
    let source = run.dice.small(8);
    let value = run.dice.pick(&[0, 1001, u64::MAX, 1000, 1, 39, 41]);
    run.stage.set(place, Field::Distance(source, value));
}

fn heard(run: &mut Run, place: usize) {
    let clock = run.own_clock(place);
    let any = run.dice.small(8);
    let me = run.stage.ends[place].host.min(7);
    let source = run.dice.pick(&[any, any, me]);
    let value = run.dice.pick(&[
        None,
        Some((1 << 48, clock)),
        Some((CLOCK_MAX, clock)),
        Some((5, clock)),
        Some((0, clock + 1)),
        Some((clock, 0)),
    ]);
    let field = match value {
        None => Field::Unheard(source),
        Some((stamp, at)) => {
            let any = run.dice.byte();
            let sources = run.dice.pick(&[0, any, 255]);
            Field::Heard(source, Heard { stamp, at, sources })
        }
    };
    run.stage.set(place, field);
}

fn body(run: &mut Run, place: usize) {
    let spot = run.spot(place);
    let due = run.own_clock(place);
    match run.dice.below(3) {
        0 => run.stage.set(place, Field::Empty(spot)),
        1 => run.stage.set(place, Field::Held(spot)),
        _ => run.stage.set(place, Field::Waits(spot, request(1, due, 0))),
    }
}

fn request(round: u8, due: u64, quiet_until: u64) -> Request {
    Request {
        round,
        due,
        quiet_until,
        express: None,
    }
}

fn round(run: &mut Run, place: usize) {
    let spot = run.other_spot(place);
    let round = run.dice.pick(&[0, 1, 16, 17, 255]);
    let due = run.own_clock(place);
    run.stage
        .set(place, Field::Waits(spot, request(round, due, 0)));
}

fn due(run: &mut Run, place: usize) {
    let spot = run.other_spot(place);
    let due = run.limit();
    run.stage.set(place, Field::Waits(spot, request(1, due, 0)));
}

fn quiet(run: &mut Run, place: usize) {
    let spot = run.other_spot(place);
    let (due, quiet) = (run.own_clock(place), run.limit());
    run.stage
        .set(place, Field::Waits(spot, request(1, due, quiet)));
}

fn requester(run: &mut Run, place: usize) {
    let spot = run.spot(place);
    let me = run.stage.ends[place].host;
    let due = run.own_clock(place);
    let requester = run.dice.pick(&[spot.source, me, HOSTS, 255, 0, 7]);
    run.stage
        .set(place, Field::Reply(spot, Reply { due, requester }));
}

fn reply_due(run: &mut Run, place: usize) {
    let spot = run.spot(place);
    let me = run.stage.ends[place].host;
    let due = run.limit();
    let requester = run.dice.host_but(&[me, spot.source]);
    run.stage
        .set(place, Field::Reply(spot, Reply { due, requester }));
}

fn hush(run: &mut Run, place: usize) {
    let spot = run.spot(place);
    let limit = run.limit();
    let time = run.dice.pick(&[0, 1, limit]);
    run.stage.set(place, Field::Hush(spot, time));
}

/// A held cue out of range, or free bytes of a record.
fn cue_byte(run: &mut Run, place: usize) {
    let spot = run.spot(place);
    let mut cue = run.good_cue();
    let field = run.dice.below(5) as usize;
    let value = run.bad_field(field);
    cue.0[2 * field..][..2].copy_from_slice(&value.to_be_bytes());
    run.stage.set(place, Field::Cue(spot, cue));
}
