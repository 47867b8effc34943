//! Timely recovery: runs that meet a bound to the tick, and random networks, none of which is beyond one.

use twin::end::{Event, Params};
use twin::message::{REPL, RQST};
use twin::recovery::judge::{judged, Claim, Verdict, CLAIMS};
use twin::recovery::log::Log;
use twin::recovery::member::Member;
use twin::recovery::messages::{about, cue, reporting};
use twin::recovery::run::played;
use twin::recovery::suppose::{Supposition, Without};
use twin::recovery::tally::Tally;
use twin::recovery::Time;
use twin::{Draw, DRAWS};

/// Ends 0, 1, .. with one kind of parameters; all draws are the greatest. End 0 is the source.
struct Stage(Vec<Member>);

/// The host number of a stranger.
const STRANGER: u8 = 7;

impl Stage {
    /// Ends that have had number 0 at time 1000.
    fn new(ends: u8, params: Params) -> Stage {
        let members = (0..ends).map(|host| Member::joined(host, params, 100 * Time::from(host), 0));
        let mut stage = Stage(members.collect());
        let first = stage.sends(1000, 0);
        for end in 1..ends {
            stage.hears(end.into(), 1000, &first);
        }
        stage
    }

    fn call(&mut self, end: usize, time: Time, event: &Event) -> Vec<u8> {
        let put_out = self.0[end].call(event, time, &[Draw::MAX; DRAWS], 0);
        put_out.unwrap_or_default()
    }

    fn sends(&mut self, time: Time, number: u16) -> Vec<u8> {
        self.call(0, time, &Event::Send(cue(number)))
    }

    fn hears(&mut self, end: usize, time: Time, bytes: &[u8]) -> Vec<u8> {
        self.call(end, time, &Event::Arrival(bytes.to_vec()))
    }

    /// Fires at a time at which something is due.
    fn fires(&mut self, end: usize, time: Time) -> Vec<u8> {
        let bytes = self.call(end, time, &Event::Fire);
        assert!(!bytes.is_empty(), "nothing is due for {end} at {time}");
        bytes
    }

    /// The claims, after each end was called once more.
    fn judged(mut self, way: Time, late: Time, without: Option<Supposition>) -> Vec<Verdict> {
        for end in 0..self.0.len() {
            self.call(end, 1 << 20, &Event::Fire);
        }
        let log = Log {
            source: 0,
            way,
            late,
            period: 1000,
            ends: self.0.into_iter().map(Member::finished).collect(),
        };
        judged(&log, Without(without))
    }
}

/// Is a claim met to the tick, with so many losses, at this time?
fn exact(verdicts: &[Verdict], claim: Claim, losses: u32, time: Time) -> bool {
    assert!(verdicts.iter().all(|one| !one.beyond()), "{verdicts:?}");
    let met = |one: &&Verdict| (one.bound, one.met) == (time, Some(time));
    let fits = |one: &&Verdict| one.claim == claim && one.losses == losses;
    verdicts.iter().filter(fits).any(|one| met(&one))
}

/// Number 1 is lost to end 1, which sees it by number 2 at 2000 and asks; all takes as long as it may: Δ = 10, Λ = 3.
fn listing(reply_at: Time) -> Stage {
    let mut stage = Stage::new(2, Params::STANDARD);
    stage.sends(1010, 1);
    let later = stage.sends(1990, 2);
    stage.hears(1, 2000, &later);
    let request = stage.fires(1, 2000 + 17 * 40 + 3);
    stage.hears(0, 2693, &request);
    let repair = stage.fires(0, reply_at);
    stage.hears(1, reply_at + 10, &repair);
    stage
}

#[test]
fn a_first_request_takes_all_its_time() {
    let verdicts = listing(2693 + 8 * 40 + 3).judged(10, 3, None);
    for claim in [Claim::Answered, Claim::Steady, Claim::AfterOutage] {
        assert!(exact(&verdicts, claim, 0, 3026), "{claim:?} {verdicts:?}");
    }
}

#[test]
fn a_reply_one_tick_late_is_beyond() {
    let late = 2693 + 8 * 40 + 4;
    let of = |verdicts: Vec<Verdict>| {
        verdicts
            .into_iter()
            .filter(|one| one.claim == Claim::Steady)
    };
    assert_eq!(of(listing(late).judged(10, 3, None)).count(), 0);
    let without = Some(Supposition::RepliesInTime);
    assert!(of(listing(late).judged(10, 3, without)).any(|one| one.beyond()));
}

/// Round 2 is long enough, and a reply's quiet time lasts all round 1: J is 2.
const NARROW: Params = Params {
    c1: 15,
    c2: 1,
    c3: 14,
    d1: 0,
    d2: 0,
    d3: 27,
    e: 0,
};

/// A round of these: (C1+C2) times 40.
const SPAN: Time = 16 * 40;

/// End 0 has repaired number 1 for a stranger at `quiet`, which end 1 did not hear; end 1 hears of it at `asked` by end 0's report. Of its
/// requests after the first so many are lost; each message takes 10 ticks. The time of the repair comes with the ends.
fn quieted(quiet: Time, asked: Time, lost: u32) -> (Stage, Time) {
    let mut stage = Stage::new(2, NARROW);
    stage.sends(2000, 1);
    let request = about(RQST, STRANGER, 0, 1, STRANGER);
    stage.hears(0, quiet, &request);
    stage.fires(0, quiet);
    let report = stage.call(0, asked - 10, &Event::Report);
    stage.hears(1, asked, &report);
    let mut time = asked;
    for round in 1..=lost + 2 {
        time += SPAN << (round - 1);
        let request = stage.fires(1, time);
        if round == 1 || round == lost + 2 {
            stage.hears(0, time + 10, &request);
        }
    }
    let repair = stage.fires(0, time + 10);
    stage.hears(1, time + 20, &repair);
    (stage, time + 20)
}

#[test]
fn losses_cost_a_round_each() {
    for lost in 0..=3 {
        let (stage, time) = quieted(4000, 4010, lost);
        let verdicts = stage.judged(10, 0, None);
        assert!(
            exact(&verdicts, Claim::Recovers, lost, time),
            "{verdicts:?}"
        );
        assert_eq!(time, 4010 + ((4 << lost) - 1) * SPAN + 20);
    }
}

#[test]
fn from_the_cue_on() {
    for lost in 0..=3 {
        let (stage, time) = quieted(3000, 3010, lost);
        let verdicts = stage.judged(10, 0, None);
        assert!(exact(&verdicts, Claim::Detected, 0, 3010), "{verdicts:?}");
        assert!(exact(&verdicts, Claim::Timely, lost, time), "{verdicts:?}");
        assert_eq!(time, 2000 + 1000 + 10 + ((4 << lost) - 1) * SPAN + 20);
    }
}

/// End 1 hears of number 1 by a stranger's request, in the tick in which the report comes, and so begins with round 2.
#[test]
fn a_heard_request_doubles_the_first_round() {
    let mut stage = Stage::new(2, Params::STANDARD);
    stage.sends(2000, 1);
    let report = stage.call(0, 3000, &Event::Report);
    stage.hears(1, 3010, &about(RQST, STRANGER, 0, 1, STRANGER));
    stage.hears(1, 3010, &report);
    let request = stage.fires(1, 3010 + 2 * 17 * 40);
    stage.hears(0, 4380, &request);
    let repair = stage.fires(0, 4380 + 8 * 40);
    stage.hears(1, 4710, &repair);
    let verdicts = stage.judged(10, 0, None);
    for claim in [Claim::Steady, Claim::SteadyRecovery] {
        assert!(exact(&verdicts, claim, 0, 4710), "{claim:?} {verdicts:?}");
    }
}

#[test]
fn an_express_request_is_answered_at_once() {
    let params = Params {
        e: 20,
        ..Params::STANDARD
    };
    let mut stage = Stage::new(2, params);
    stage.hears(1, 1000, &about(REPL, 0, 0, 0, 1));
    stage.sends(1010, 1);
    let later = stage.sends(1990, 2);
    stage.hears(1, 2000, &later);
    let request = stage.fires(1, 2020);
    let repair = stage.hears(0, 2030, &request);
    stage.hears(1, 2040, &repair);
    let verdicts = stage.judged(10, 0, None);
    assert!(exact(&verdicts, Claim::Express, 0, 2040), "{verdicts:?}");
}

/// Ends 0 and 2 hold number 1; the request of end 1 reaches end 2 alone.
#[test]
fn one_of_several_holders_is_enough() {
    let mut stage = Stage::new(3, Params::STANDARD);
    let cue = stage.sends(1010, 1);
    stage.hears(2, 1020, &cue);
    stage.hears(1, 2000, &reporting(STRANGER, 0, 1));
    let request = stage.fires(1, 2000 + 17 * 40);
    stage.hears(2, 2690, &request);
    let repair = stage.fires(2, 2690 + 8 * 40);
    stage.hears(0, 3020, &repair);
    stage.hears(1, 3020, &repair);
    let verdicts = stage.judged(10, 0, None);
    assert!(
        exact(&verdicts, Claim::AnsweredAmong, 0, 3020),
        "{verdicts:?}"
    );
    assert!(
        exact(&verdicts, Claim::AfterOutageAmong, 0, 3020),
        "{verdicts:?}"
    );
}

#[test]
fn no_random_network_is_beyond_a_bound() {
    let tally = Tally::of(1, 300, None);
    assert_eq!(tally.missed(), 0, "{:?}", tally.beyond);
    for &(claim, name) in CLAIMS {
        assert!(tally.claim(claim).held > 0, "{name} has no instance");
    }
}

#[test]
fn what_is_supposed_is_needed() {
    for name in [
        "asker-stays",
        "asks-in-time",
        "requests-reach",
        "requests-shared",
        "repairs-reach",
    ] {
        let tally = Tally::of(1, 40, Supposition::named(name));
        assert!(
            tally.missed() > 0,
            "{name} is left out and nothing is beyond"
        );
    }
}

#[test]
fn a_seed_gives_one_network() {
    assert_eq!(played(7, None).lines(1), played(7, None).lines(1));
    assert_ne!(played(7, None).lines(1), played(8, None).lines(1));
}
