//! Scenes: a state about an edge of a rule, and the call that meets it. They are played on the spare end or on a fresh one.

use super::events::MOVES;
use super::messages::{about, composed, session, Reader};
use super::stage::{Spot, COPY, SPARE};
use super::{announcing, fetching, Part, Run};
use crate::end::{Heard, Params, Status};
use crate::message::{self, Echo, Message, Report};
use crate::trace::{Asked, Brought, Does, Field, Verb};
use crate::{CLOCK_MAX, NUMBERS, PLACES};

const SCENES: [(u64, Part); 29] = [
    (8, request_quiet),
    (8, reply_quiet),
    (10, ties),
    (6, last_rounds),
    (12, echo_of_oneself),
    (14, span_edges),
    (10, repair),
    (6, reports),
    (4, last_numbers),
    (4, looped),
    (18, statuses),
    (1, full_report),
    (8, two_reasons),
    (10, other_bytes),
    (8, probe),
    (16, window),
    (2, own_window),
    (6, last_number),
    (4, old_kinds),
    (14, express_gap),
    (8, pairs),
    (10, kind_21),
    (14, fetching::fetches),
    (12, fetching::late_cue),
    (8, fetching::kind_22),
    (8, fetching::rejoined),
    (6, announcing::announces),
    (1, announcing::announces_full),
    (6, announcing::kind_24),
];

impl Run {
    pub(super) fn scene(&mut self) {
        self.surround(false);
        self.member_on_spare();
        let scene = self.dice.weighted(&SCENES);
        scene(self);
    }
}

/// "clock above quiet-until (lemma 4.24 is strict) sets the next round, Done; otherwise Ignored."
fn request_quiet(run: &mut Run) {
    let name = run.name(true);
    let quiet = 1 + run.dice.below(9);
    let round = run.dice.pick(&[1, 1, 2, 3, 15, 16]);
    run.waits(name, round, quiet + 3, quiet);
    let ticks = quiet - 1 + run.dice.below(3);
    run.hears_request(name, ticks);
}

/// "with no reply waiting and clock ≥ reply-quiet, set a reply".
fn reply_quiet(run: &mut Run) {
    let name = run.name(false);
    run.held(name);
    let quiet = 1 + run.dice.below(9);
    run.hush(name, quiet);
    let ticks = quiet - 1 + run.dice.below(3);
    run.hears_request(name, ticks);
    if run.dice.one_in(2) {
        run.hears_request(name, 0);
    }
}

/// "the earliest; ties: request before reply, then lower source, lower number".
fn ties(run: &mut Run) {
    let me = run.me();
    let due = 1 + run.dice.below(5);
    let count = 2 + run.dice.below(2);
    for _ in 0..count {
        if run.dice.one_in(3) {
            run.opened(false);
        }
        let name = run.name(false);
        let due = due + run.dice.pick(&[0, 0, 0, 1]);
        if name.source != me && run.dice.one_in(2) {
            let round = 1 + run.dice.small(16);
            match run.dice.below(3) {
                // "Express waits come before requests in ties." (document 02, P8)
                0 => {
                    let request = due + run.dice.pick(&[0, 0, 1, 500]);
                    run.waits_express(name, round, request, due);
                }
                _ => run.waits(name, round, due, 0),
            }
        } else {
            run.replies(name, due);
        }
    }
    let ticks = due - 1 + run.dice.below(3);
    let clock = run.after(ticks);
    for _ in 0..count {
        run.does(clock, Verb::Fire);
    }
}

/// "After 16 comes 16."
fn last_rounds(run: &mut Run) {
    let name = run.name(true);
    let round = run.dice.pick(&[14, 15, 16]);
    if run.dice.one_in(2) {
        let distance = run.dice.pick(&[1, 40, 999, 1000]);
        run.stage.set(SPARE, Field::Distance(name.source, distance));
    }
    run.waits(name, round, 0, 0);
    if run.dice.one_in(2) {
        let clock = run.after(0);
        run.does(clock, Verb::Fire);
    } else {
        run.hears_request(name, 1);
    }
}

/// "e = clock − stamp − held ≥ 0 sets the distance to the sender" to "the least whole number of milliseconds that is at least e/8, then
/// brought into 1..1000" (document 02, P2), after the reports. Now and then at the last clock, so that e can be as great as it gets.
fn echo_of_oneself(run: &mut Run) {
    let me = run.me();
    let sender = run.dice.host_but(&[me]);
    let ticks = run.dice.below(40);
    let clock = match run.dice.one_in(24) {
        true => CLOCK_MAX,
        false => run.after(ticks),
    };
    let (stamp, held) = run.echoed(clock);
    let mut reports = Vec::new();
    if run.dice.one_in(2) {
        let last = run.name_near(SPARE, sender).number;
        let source = sender;
        reports.push(Report { source, last });
    }
    let host = me;
    let echoes = vec![Echo { host, stamp, held }];
    let stamp = run.dice.below(1000);
    run.hears(clock, session(sender, stamp, reports, echoes));
    if run.dice.one_in(4) {
        run.does(clock, Verb::Report);
    }
}

/// DATA, RQST and REPL of a number just below first, at first, at last and just above last; of own names too.
fn span_edges(run: &mut Run) {
    let me = run.me();
    let source = match run.dice.one_in(3) {
        true if run.stage.open_sources(SPARE).contains(&me) => me,
        _ => run.name(false).source,
    };
    let name = run.name_near(SPARE, source);
    let kind = run.dice.pick(&[
        message::DATA,
        message::RQST,
        message::REPL,
        message::XPRS,
        message::FTCH,
        message::LATE,
    ]);
    let ticks = run.dice.below(3);
    run.hears_of(kind, name, ticks);
}

impl Run {
    /// A message of this kind from another end brings a number, so many ticks on.
    pub(super) fn hears_of(&mut self, kind: u8, name: Spot, ticks: u64) {
        let (me, source) = (self.me(), name.source);
        let cue = self.cue_of(SPARE, name);
        let clock = self.after(ticks);
        let stamp = self.dice.below(1000);
        let message = match kind {
            message::DATA => about(message::DATA, source, stamp, name, source, cue),
            message::RQST => {
                let sender = self.dice.host_but(&[me, source]);
                about(message::RQST, sender, stamp, name, sender, cue)
            }
            message::XPRS => {
                let sender = self.dice.host_but(&[me, source]);
                let host = self.named_by(sender, SPARE);
                about(message::XPRS, sender, stamp, name, host, cue)
            }
            message::REPL => {
                let sender = self.dice.host_but(&[me]);
                let requester = self.dice.host_but(&[sender, source]);
                about(message::REPL, sender, stamp, name, requester, cue)
            }
            message::FTCH => {
                let sender = self.dice.host_but(&[me, source]);
                let host = self.named_by(sender, SPARE);
                about(message::FTCH, sender, stamp, name, host, cue)
            }
            message::LATE => {
                let sender = self.dice.host_but(&[me]);
                let requester = self.dice.host_but(&[sender, source]);
                about(message::LATE, sender, stamp, name, requester, cue)
            }
            _ => {
                let sender = self.dice.host_but(&[me]);
                let last = name.number;
                session(sender, stamp, vec![Report { source, last }], vec![])
            }
        };
        self.hears(clock, message);
    }
}

/// "Not held: as DATA, Got; held: Done. Either way its waiting reply goes and reply-quiet = t + D3×d, d to the requester."
fn repair(run: &mut Run) {
    let me = run.me();
    let mut name = run.name(false);
    if name.source != me && run.dice.one_in(3) {
        run.waits(name, 1, 2, 2);
    } else if run.dice.one_in(2) {
        run.replies(name, 5);
    } else {
        let last = run.stage.span(SPARE, name.source).map_or(0, |span| span.1);
        name.number = last.saturating_add(run.dice.pick(&[1, 1, 2, 3]));
    }
    let sender = run.dice.host_but(&[me]);
    let any = run.dice.host_but(&[sender, name.source]);
    let asked = sender != me && name.source != me && run.dice.one_in(3);
    let requester = if asked { me } else { any };
    let cue = run.cue_of(SPARE, name);
    let clock = run.after(1);
    run.hears(clock, about(message::REPL, sender, 7, name, requester, cue));
}

/// Events on a fresh end of each status.
fn statuses(run: &mut Run) {
    use Status::*;
    let host = run.dice.small(8);
    let params = run.params();
    run.stage.open(COPY, host, params);
    let status = run
        .dice
        .pick(&[Idle, Idle, Joining, Joining, Leaving, Leaving, Member]);
    run.stage.set(COPY, Field::Status(status));
    match run.dice.below(6) {
        0 => {
            let next = run.dice.pick(&[NUMBERS, NUMBERS, NUMBERS - 1, 64]);
            run.stage.set(COPY, Field::Next(next));
            let cue = run.cue();
            run.stage.act(COPY, 3, Verb::Send(cue));
        }
        1 | 2 => return run.changed_event(COPY),
        _ => {}
    }
    let kind = run.dice.weighted(&MOVES);
    let (verb, _) = run.verb(kind, COPY, 4, 60);
    run.stage.act(COPY, 4, verb);
    run.any_event(COPY);
}

/// The longest message: "Out SESS with all firsts' sources and all heard stamps."
fn full_report(run: &mut Run) {
    let me = run.me();
    let now = run.spare_now();
    for source in 0..8 {
        if run.stage.span(SPARE, source).is_none() {
            run.open_at(source);
        }
        if source != me {
            let stamp = run.dice.pick(&[0, 7, now, CLOCK_MAX]);
            let heard = Heard {
                stamp,
                at: now,
                sources: run.dice.byte(),
            };
            run.stage.set(SPARE, Field::Heard(source, heard));
        }
    }
    let clock = run.after(3);
    run.does(clock, Verb::Report);
}

/// "For each report of another, opened source above its last, the new numbers get round 1 and last rises."
fn reports(run: &mut Run) {
    let me = run.me();
    let sender = run.dice.host_but(&[me]);
    if run.dice.one_in(3) {
        run.opened(false);
    }
    let mut reports = Vec::new();
    for source in 0..8 {
        if !run.dice.one_in(3) {
            let last = run.name_near(SPARE, source).number;
            reports.push(Report { source, last });
        }
    }
    let clock = run.after(0);
    let stamp = run.dice.below(1000);
    run.hears(clock, session(sender, stamp, reports, vec![]));
}

/// "For a member, is the next number below 64? 7.", by document 02, P7, "only at 65,536"; and numbers about which places come round.
fn last_numbers(run: &mut Run) {
    let me = run.me();
    let next = run
        .dice
        .pick(&[63, 64, 127, 65_534, 65_535, 65_535, 65_536]);
    // An own last is next - 1, so the own source is closed, and its names are gone, by a leave.
    if run.stage.open_sources(SPARE).contains(&me) {
        let clock = run.after(0);
        for event in [Verb::Leave, Verb::Left, Verb::Join, Verb::Joined] {
            run.does(clock, event);
        }
    }
    run.stage.set(SPARE, Field::Next(next));
    for _ in 0..2 {
        let clock = run.after(1);
        let cue = run.cue();
        run.does(clock, Verb::Send(cue));
    }
}

/// "an arrival whose sender is oneself: Ignored."
fn looped(run: &mut Run) {
    let me = run.me();
    let name = run.name(false);
    let cue = run.cue_of(SPARE, name);
    let clock = run.after(1);
    let source = name.source;
    let requester = run.dice.host_but(&[me, source]);
    let message = match run.dice.below(3) {
        0 if source == me => about(message::DATA, me, 5, name, me, cue),
        0 if source != me && run.dice.one_in(2) => {
            let host = run.dice.host_but(&[me]);
            let kind = run.dice.pick(&[message::XPRS, message::FTCH]);
            about(kind, me, 5, name, host, cue)
        }
        0 if source != me => about(message::RQST, me, 5, name, me, cue),
        1 => {
            let kind = run.dice.pick(&[message::REPL, message::LATE]);
            about(kind, me, 5, name, requester, cue)
        }
        _ => {
            let last = name.number.saturating_add(1);
            session(me, 5, vec![Report { source, last }], vec![])
        }
    };
    run.hears(clock, message);
}

/// "the first that holds" (document 02, P3): a state and a message for which two or more of the reasons hold, and the event that meets
/// them.
fn two_reasons(run: &mut Run) {
    let me = run.me();
    let mut name = run.name(false);
    match run.dice.below(4) {
        // A reply waits and its time is quiet.
        0 => {
            run.replies(name, 5);
            let ticks = 1 + run.dice.below(3);
            run.hush(name, ticks);
            let ticks = run.dice.below(ticks);
            run.hears_request(name, ticks);
            return;
        }
        // A number just outside the span, or a source that is not open.
        1 => name = run.name_near(SPARE, name.source),
        2 => name.source = run.dice.small(8),
        // No member, or a crashed end, hears it: what it kept is gone, so its source is not open either.
        _ => {
            let status = run
                .dice
                .pick(&[Status::Leaving, Status::Crashed, Status::Idle]);
            run.stage.open(COPY, me, Params::STANDARD);
            run.stage.set(COPY, Field::Status(status));
            let message = run.looped_or_not(me, name);
            let verb = Verb::Hear(composed(message));
            run.stage.act(COPY, 9, verb);
            return;
        }
    }
    let message = run.looped_or_not(me, name);
    let ticks = run.dice.below(4);
    let clock = run.after(ticks);
    run.hears(clock, message);
}

impl Run {
    /// An RQST, kind 21 or REPL about a name, every other time of oneself.
    fn looped_or_not(&mut self, me: u8, name: Spot) -> Message {
        let source = name.source;
        let other = self.dice.host_but(&[me, source]);
        let looped = self.dice.one_in(2);
        let cue = self.cue_of(SPARE, name);
        if self.dice.one_in(2) && !(looped && source == me) {
            let sender = if looped { me } else { other };
            if self.dice.one_in(3) {
                let host = self.named_by(sender, SPARE);
                let kind = self.dice.pick(&[message::XPRS, message::FTCH]);
                return about(kind, sender, 5, name, host, cue);
            }
            return about(message::RQST, sender, 5, name, sender, cue);
        }
        let sender = if looped { me } else { other };
        let requester = self.dice.host_but(&[sender, source]);
        let kind = self
            .dice
            .pick(&[message::REPL, message::REPL, message::LATE]);
        about(kind, sender, 5, name, requester, cue)
    }
}

/// "Such a message from another end that names a held cue with other bytes gets a new answer, Clash, with the name; apart from the clock
/// nothing changes, reply waits included." (document 02, P4); now and then with the same bytes, or looped.
fn other_bytes(run: &mut Run) {
    let me = run.me();
    let name = run.name(false);
    run.held(name);
    if run.dice.one_in(2) {
        let due = run.dice.below(9);
        run.replies(name, due);
    }
    if run.dice.one_in(4) {
        let quiet = run.dice.below(9);
        run.hush(name, quiet);
    }
    let held = run.stage.record(SPARE, name.at()).cue;
    let cue = match run.dice.one_in(4) {
        true => held,
        false => run.forged(held),
    };
    let ticks = run.dice.below(3);
    let clock = run.after(ticks);
    let source = name.source;
    let message = match run.dice.below(3) {
        0 => about(message::DATA, source, 5, name, source, cue),
        _ => {
            let other = run.dice.host_but(&[me]);
            let sender = run.dice.pick(&[other, other, other, me]);
            let requester = run.dice.host_but(&[sender, source]);
            about(message::REPL, sender, 5, name, requester, cue)
        }
    };
    run.hears(clock, message);
    if run.dice.one_in(3) {
        run.does(clock, Verb::Fire);
    }
}

/// "A message of no bytes is now taken by a member as a Report event at that clock, and by any other status as Ignored." (document 02,
/// P5): on a copy of the spare end, perhaps moved to another status, beside a message of one byte; and a member's Report at the same clock.
fn probe(run: &mut Run) {
    run.stage.copy(COPY, SPARE);
    let ticks = run.dice.below(40);
    let clock = run.after(ticks);
    let way: &[Verb] = match run.dice.below(9) {
        0 => &[Verb::Leave],
        1 => &[Verb::Leave, Verb::Left],
        2..=4 => &[Verb::Leave, Verb::Left, Verb::Join],
        5 => &[Verb::Crash],
        _ => &[],
    };
    for verb in way {
        run.stage.act(COPY, run.spare_now(), verb.clone());
    }
    let length = run.dice.pick(&[0, 0, 0, 0, 0, 1, 11]);
    let bytes = run.dice.bytes(length);
    run.stage
        .act(COPY, clock, Verb::Hear(Brought::Bytes(bytes)));
    if way.is_empty() && run.dice.one_in(2) {
        run.stage.copy(COPY, SPARE);
        run.stage.act(COPY, clock, Verb::Report);
    }
}

/// The kinds by which another's last rises.
const RISES: [u8; 5] = [
    message::DATA,
    message::RQST,
    message::REPL,
    message::SESS,
    message::XPRS,
];

/// "An end keeps the latest 64 numbers of each source: when last rises to L, numbers below L−63 are retired with their waits" (document
/// 02, P7): another's window is filled by a report, its lowest numbers are stirred, and then a number just below, inside or above it comes.
fn window(run: &mut Run) {
    let source = run.name(true).source;
    let (first, _) = run.stage.span(SPARE, source).unwrap_or((0, 0));
    let filled = first.saturating_add(run.dice.pick(&[61, 62, 63, 63, 63, 64]));
    if !run.dice.one_in(4) {
        let kind = run.dice.pick(&RISES);
        let number = filled;
        run.hears_of(kind, Spot { source, number }, 0);
    }
    let (first, last) = run.stage.span(SPARE, source).unwrap_or((0, 0));
    for number in first..=last.min(first.saturating_add(3)) {
        let name = Spot { source, number };
        if run.dice.one_in(2) {
            run.held(name);
        }
        if run.dice.one_in(2) {
            run.stir_at(name);
        }
    }
    let above = last.saturating_add(run.jump());
    let number = run.dice.weighted(&[
        (2, first.saturating_sub(1)),
        (2, first),
        (1, last),
        (3, last.saturating_add(1)),
        (2, last.saturating_add(2)),
        (6, above),
        (2, first.saturating_add(64)),
    ]);
    let kind = run.dice.pick(&RISES);
    run.hears_of(kind, Spot { source, number }, 1);
    let end = SPARE as u8;
    let asked = run.dice.pick(&[0, 1]);
    let asked = match asked {
        0 => Asked::Missed(source),
        _ => Asked::Span(source),
    };
    run.stage.line(Does::Ask { end, asked });
    // What was retired, or is the new first, comes late.
    if run.dice.one_in(2) {
        let (first, _) = run.stage.span(SPARE, source).unwrap_or((0, 0));
        let number = run.dice.pick(&[first, first.saturating_sub(1)]);
        let kind = run
            .dice
            .pick(&[message::DATA, message::RQST, message::REPL]);
        run.hears_of(kind, Spot { source, number }, 2);
    }
    let clock = run.after(5);
    run.does(clock, Verb::Fire);
}

/// An own window that is full, and a Send that retires its first: that had a waiting reply or a reply-quiet time.
fn own_window(run: &mut Run) {
    let me = run.me();
    let clock = run.after(0);
    for event in [Verb::Leave, Verb::Left, Verb::Join, Verb::Joined] {
        run.does(clock, event);
    }
    let first: u16 = run.dice.pick(&[0, 1, 40, 64, 1000, 65_471, 65_472]);
    let last = first + u16::from(PLACES) - 1;
    run.stage.set(SPARE, Field::Next(u32::from(last) + 1));
    let source = me;
    let span = Field::Span {
        source,
        first,
        last,
    };
    run.stage.set(SPARE, span);
    for number in first..=last {
        run.held(Spot { source, number });
    }
    let lowest = Spot {
        source,
        number: first,
    };
    match run.dice.below(3) {
        0 => run.replies(lowest, 4),
        1 => run.hush(lowest, 4),
        _ => {
            run.replies(lowest, 3);
            run.hush(lowest, 5);
        }
    }
    for _ in 0..2 {
        let clock = run.after(1);
        let cue = run.good_cue();
        run.does(clock, Verb::Send(cue));
    }
    let number = first + run.dice.pick(&[0, 1, 2]);
    let kind = run.dice.pick(&[message::RQST, message::REPL]);
    run.hears_of(kind, Spot { source, number }, 1);
    let clock = run.after(4);
    run.does(clock, Verb::Fire);
}

/// The last numbers of another's source: 65,535 is brought, from near or from far, and what comes after it.
fn last_number(run: &mut Run) {
    let source = run.name(true).source;
    for _ in 0..2 {
        let number = run
            .dice
            .pick(&[65_535, 65_535, 65_534, 65_473, 65_472, 65_471]);
        let kind = run.dice.pick(&RISES);
        run.hears_of(kind, Spot { source, number }, 1);
    }
}

/// "the old kinds are still read, numbers to 63, as the same meanings" (document 02, P7): heard by a fresh member, so that low numbers
/// are near.
fn old_kinds(run: &mut Run) {
    let host = run.dice.small(8);
    run.stage.open(COPY, host, Params::STANDARD);
    run.stage.set(COPY, Field::Status(Status::Member));
    for clock in 0..3 {
        let reader = Reader {
            place: COPY,
            clock,
            invented: 100,
        };
        let bytes = run.old_kind(&reader);
        let verb = Verb::Hear(Brought::Bytes(bytes));
        run.stage.act(COPY, clock, verb);
    }
}

/// "A member that sets round 1 by a gap before a DATA, not a REPL, and is that requester also sets an express wait, due E ticks on"; "An
/// express wait goes with its request" (document 02, P8): a gap, then something that leaves, renews or ends the request, and fires about the
/// due time.
fn express_gap(run: &mut Run) {
    let source = run.name(true).source;
    let (_, last) = run.stage.span(SPARE, source).unwrap_or((0, 0));
    if !run.dice.one_in(8) {
        run.keeps_pair(source, last);
    }
    let e = run.dice.pick(&[0, 1, 5, 5, 60, 1000]);
    let mut params = run.stage.ends[SPARE].params;
    params.e = e;
    run.stage.set(SPARE, Field::Params(params));
    let number = last.saturating_add(run.dice.pick(&[1, 2, 2, 2, 3, 3, 5, 63, 64, 65, 70]));
    let kind = run.dice.weighted(&[
        (8, message::DATA),
        (2, message::REPL),
        (1, message::RQST),
        (1, message::SESS),
        (1, message::XPRS),
    ]);
    run.hears_of(kind, Spot { source, number }, 0);
    let between = Spot {
        source,
        number: number.saturating_sub(1),
    };
    match run.dice.below(8) {
        0 => run.hears_of(message::DATA, between, 0),
        1 => run.hears_of(message::REPL, between, 0),
        2 | 3 => {
            let ticks = run.dice.pick(&[1, 500, 5000]);
            run.hears_request(between, ticks);
        }
        4 => {
            let number = number.saturating_add(run.dice.pick(&[62, 63, 64]));
            run.hears_of(message::SESS, Spot { source, number }, 0);
        }
        5 => {
            // "with the sender then kept": another pair before it fires.
            let number = last.saturating_add(run.dice.pick(&[0, 1]));
            run.hears_of(message::REPL, Spot { source, number }, 0);
        }
        6 if run.dice.one_in(3) => {
            let clock = run.after(0);
            for event in [Verb::Leave, Verb::Left, Verb::Join, Verb::Joined] {
                run.does(clock, event);
            }
        }
        _ => {}
    }
    let e = u64::from(e);
    let ticks = run
        .dice
        .pick(&[e.saturating_sub(1), e, e, e + 1, e + 20_000]);
    let clock = run.after(ticks);
    for _ in 0..3 {
        run.does(clock, Verb::Fire);
    }
}

/// "the requester and sender of the latest REPL answered Got or Done that named a number at least as high as the kept one's" (document 02,
/// P8): REPLs about the kept number.
fn pairs(run: &mut Run) {
    let name = run.name(false);
    let Spot { source, number } = name;
    if !run.dice.one_in(4) {
        let near = run.dice.pick(&[
            number,
            number,
            number.saturating_sub(1),
            number.saturating_add(1),
            0,
            65_535,
        ]);
        run.keeps_pair(source, near);
    }
    for _ in 0..2 {
        let number = run.dice.pick(&[
            number,
            number,
            number.saturating_sub(1),
            number.saturating_add(1),
        ]);
        run.hears_of(message::REPL, Spot { source, number }, 1);
        let end = SPARE as u8;
        let asked = Asked::Pair(source);
        run.stage.line(Does::Ask { end, asked });
    }
}

/// "The named sender, if it holds the cue and clock ≥ reply-quiet, drops its waiting reply, sets reply-quiet as Fire does and answers Out
/// REPL in that call [...]. Otherwise it, like every other end, treats kind 21 as RQST from its sender." (document 02, P8)
fn kind_21(run: &mut Run) {
    let me = run.me();
    let name = run.name(false);
    let quiet = 1 + run.dice.below(5);
    match run.dice.below(5) {
        0 if name.source != me => run.waits(name, 1, 9, quiet),
        1 | 2 => run.replies(name, 9),
        _ => run.held(name),
    }
    if !run.dice.one_in(3) {
        run.hush(name, quiet);
    }
    if run.dice.one_in(3) {
        let distance = run.dice.pick(&[1, 7, 999]);
        let host = run.dice.host_but(&[me]);
        run.stage.set(SPARE, Field::Distance(host, distance));
    }
    let sender = run.dice.host_but(&[me, name.source]);
    let other = run.dice.host_but(&[sender]);
    let host = run.dice.pick(&[me, me, me, other]);
    let cue = run.good_cue();
    let ticks = quiet - 1 + run.dice.below(3);
    let clock = run.after(ticks);
    run.hears(clock, about(message::XPRS, sender, 7, name, host, cue));
    if run.dice.one_in(2) {
        let clock = run.after(9);
        run.does(clock, Verb::Fire);
    }
}
