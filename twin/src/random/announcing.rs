//! Announcing (document 02, P11): scenes on the spare end about the edges of Announce and kind 24.

use super::messages::announcement;
use super::stage::{Spot, SPARE};
use super::Run;
use crate::trace::{Field, Verb};

/// "A new event Announce has a member put out its own first and last [...]; without a first it gives Nothing": with no first, with one number,
/// with some; after it a Send, and Announce again.
pub fn announces(run: &mut Run) {
    let me = run.me();
    if run.dice.one_in(4) {
        let clock = run.after(0);
        for verb in [Verb::Leave, Verb::Left, Verb::Join, Verb::Joined] {
            run.does(clock, verb);
        }
    } else if run.stage.span(SPARE, me).is_none() {
        run.open_at(me);
    }
    for _ in 0..2 {
        let clock = run.after(1);
        run.does(clock, Verb::Announce);
        let cue = run.good_cue();
        run.does(clock, Verb::Send(cue));
    }
    let clock = run.after(0);
    run.does(clock, Verb::Announce);
}

/// "lead is from trail to trail+63": an own window that is full, or lacks one number.
pub fn announces_full(run: &mut Run) {
    let me = run.me();
    let clock = run.after(0);
    for verb in [Verb::Leave, Verb::Left, Verb::Join, Verb::Joined] {
        run.does(clock, verb);
    }
    let first: u16 = run.dice.pick(&[0, 1, 40, 1000, 65_471, 65_472]);
    let last = first + run.dice.pick(&[62, 63, 63]);
    run.stage.set(SPARE, Field::Next(u32::from(last) + 1));
    let source = me;
    run.stage.set(
        SPARE,
        Field::Span {
            source,
            first,
            last,
        },
    );
    for number in first..=last {
        run.held(Spot { source, number });
    }
    announces(run);
}

/// "Members answer kind 24 Done.": of a source that is open or not, a lead about its last, looped now and then.
pub fn kind_24(run: &mut Run) {
    let me = run.me();
    let source = match run.dice.below(6) {
        0 => me,
        1 => run.dice.host_but(&[me]),
        _ => run.name(true).source,
    };
    for _ in 0..2 {
        let near = run.name_near(SPARE, source).number;
        let (clock, stamp) = (run.after(1), run.dice.below(1000));
        let message = match run.stage.span(SPARE, source) {
            Some((first, last)) if run.dice.one_in(2) => announcement(source, stamp, first, last),
            _ => run.compose_announce(source, stamp, near),
        };
        run.hears(clock, message);
    }
}
