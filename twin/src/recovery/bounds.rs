//! The bounds. Times are in ticks, distances in milliseconds, parameters in quarters: "so parameter times distance is ticks".

use super::Time;
use crate::end::{Params, LAST_ROUND};

/// What the bounds are made of.
#[derive(Clone, Copy, Debug, PartialEq, Eq)]
pub struct Terms {
    /// Δ, "the longest way of a message between them".
    pub way: Time,
    /// Λ, "how late a due wait is fired".
    pub late: Time,
    /// "the greatest distance that g finds".
    pub reach: i64,
    /// "the bounds of h's distance to s".
    pub far: i64,
    pub near: i64,
    /// C1+C2 and C3 of the asker.
    pub asks: i64,
    pub quiet: i64,
    /// D1+D2 and D3 of the holder.
    pub replies: i64,
    pub hush: i64,
}

/// How much longer a round lasts than round 1: "F = 2^(k−1)"; "After 16 comes 16."
pub fn factor(round: u32) -> i64 {
    1 << (round.min(u32::from(LAST_ROUND)) - 1)
}

impl Terms {
    /// The terms of a house in which all distances are d and all ends have the same parameters.
    pub fn even(params: &Params, way: Time, late: Time, d: i64) -> Terms {
        let [c1, c2, c3, d1, d2, d3] = of(params);
        Terms {
            way,
            late,
            reach: d,
            far: d,
            near: d,
            asks: c1 + c2,
            quiet: c3,
            replies: d1 + d2,
            hush: d3,
        }
    }

    /// "Y = 2Δ + D3·reach": what a repair that went out so long ago does to the holder is over.
    pub fn back(&self) -> Time {
        2 * self.way + self.hush * self.reach
    }

    /// "A = 2Δ + (D1+D2)·reach + Λ": from a request to the cue.
    pub fn answer(&self) -> Time {
        2 * self.way + self.replies * self.reach + self.late
    }

    /// "(C1+C2)far": round 1 lasts at most so long.
    fn span(&self) -> Time {
        self.asks * self.far
    }

    /// Answered: "Got by due + Λ + A".
    pub fn answered(&self, due: Time) -> Time {
        due + self.late + self.answer()
    }

    /// Steady: "Got by t0 + F(C1+C2)far + 2Δ + (D1+D2)reach + 2Λ, F = 1, or 2 after a heard request".
    pub fn steady(&self, asked: Time, first: u32) -> Time {
        asked + factor(first) * self.span() + self.late + self.answer()
    }

    /// Recovers: "losses at k times after t0: Got by t0 + (2^(J+k)−1)(C1+C2)far + (J+k)Λ + A".
    pub fn recovers(&self, asked: Time, long: u32, losses: u32) -> Time {
        let rounds = long + losses;
        let spans = (1 << rounds) - 1;
        asked + spans * self.span() + i64::from(rounds) * self.late + self.answer()
    }

    /// AfterOutage: "Got by t1 + Y + F(C1+C2)far + Λ + A".
    pub fn outage(&self, over: Time, factor: i64) -> Time {
        over + self.back() + factor * self.span() + self.late + self.answer()
    }

    /// Detected: "h holds n or asks for it by t0 + (i+1)P + Δ".
    pub fn detected(&self, sent: Time, period: Time, missed: i64) -> Time {
        sent + (missed + 1) * period + self.way
    }

    /// ExpressRecovers: "Got by its due time + Λ + 2Δ".
    pub fn express(&self, due: Time) -> Time {
        due + self.late + 2 * self.way
    }

    /// J: the least round, from 2 on, that lasts at least Y, and after which each lasts as long as Y and what a repair takes to go out.
    /// A round lasts longer than its quiet time, which has C3 and the least distance.
    pub fn long_round(&self) -> Option<u32> {
        let quiet = |round: u32| factor(round) * self.quiet * self.near;
        let apart = self.back() + self.answer() - self.way;
        (2..=u32::from(LAST_ROUND))
            .find(|&round| quiet(round) >= self.back() && quiet(round + 1) >= apart)
    }

    /// F: the greatest factor of a round that can have been set by t1 + Y, where `first` was set at t0: the rounds between have had their
    /// quiet times, "t0 + (f(i)−f(first))·C3·near ≤ t1+Y".
    pub fn outlasting(&self, asked: Time, first: u32, over: Time) -> i64 {
        let set = |round: u32| asked + (factor(round) - factor(first)) * self.quiet * self.near;
        (first..=u32::from(LAST_ROUND))
            .filter(|&round| set(round) <= over + self.back())
            .map(factor)
            .max()
            .unwrap_or(factor(first))
    }
}

/// C1, C2, C3, D1, D2, D3.
pub fn of(params: &Params) -> [i64; 6] {
    [
        params.c1, params.c2, params.c3, params.d1, params.d2, params.d3,
    ]
    .map(i64::from)
}
