//! How long a request may wait for its next round (document 02, P12): the bound, and a table and a picture of docs/RECOVERY.md.

use std::fmt::Write;

use crate::end::{Params, LAST_ROUND};
use crate::picture::paper::{at, Anchor, Label, Paper, Point};

/// "A tick is 250 microseconds."
pub(crate) const TICKS_A_SECOND: u64 = 4000;

/// The distances, in milliseconds, that the page shows.
pub(crate) const DISTANCES: [u64; 5] = [10, 40, 100, 250, 1000];

/// "(2^k−1)×(C1+C2)×d", in ticks: the parameters are in quarters and d in milliseconds, "so parameter times distance is ticks".
pub fn bound(params: &Params, d: u64, k: u8) -> u64 {
    ((1 << k) - 1) * (u64::from(params.c1) + u64::from(params.c2)) * d
}

/// The k of the request: "for k from 1 to 15".
pub fn turns() -> impl Iterator<Item = u8> {
    1..LAST_ROUND
}

/// Ticks in seconds, brought up to a hundredth, with a comma after each three digits.
pub(crate) fn seconds(ticks: u64) -> String {
    let hundredths = (100 * ticks).div_ceil(TICKS_A_SECOND);
    let whole = (hundredths / 100).to_string();
    let mut words = String::new();
    for (place, digit) in whole.chars().enumerate() {
        if place > 0 && (whole.len() - place).is_multiple_of(3) {
            words.push(',');
        }
        words.push(digit);
    }
    let _ = write!(words, ".{:02}", hundredths % 100);
    words
}

/// The bound in seconds, with the house's parameters.
pub fn table() -> String {
    let mut text = String::from("| k | round |");
    for d in DISTANCES {
        let _ = write!(text, " {d} ms |");
    }
    let _ = writeln!(text, "\n|---|---|{}", "---:|".repeat(DISTANCES.len()));
    for k in turns() {
        let _ = write!(text, "| {k} | {} |", k + 1);
        for d in DISTANCES {
            let _ = write!(text, " {} |", seconds(bound(&Params::STANDARD, d, k)));
        }
        text.push('\n');
    }
    text
}

const STYLE: &str = "\
text { font: 12px Helvetica, Arial, 'DejaVu Sans', sans-serif; fill: #333; }
.paper { fill: #fff; }
.guide { stroke: #ececec; }
.bound { stroke: #1f5fa8; stroke-width: 1.6; fill: none; }
.turn { fill: #1f5fa8; }
";

/// The picture's size, and the room for words to the left of the field, above and below it.
const WIDTH: f64 = 760.0;
const HEIGHT: f64 = 420.0;
const LEFT: f64 = 80.0;
const TOP: f64 = 30.0;
const FLOOR: f64 = 370.0;

/// Pixels from one k to the next, and for ten times the seconds.
const ACROSS: f64 = 40.0;
const TENFOLD: f64 = 45.0;

/// The times that have a line: a hundredth of a second is the floor.
const TIMES: [(f64, &str); 8] = [
    (0.01, "0.01 s"),
    (0.1, "0.1 s"),
    (1.0, "1 s"),
    (10.0, "10 s"),
    (60.0, "1 min"),
    (600.0, "10 min"),
    (3600.0, "1 h"),
    (86_400.0, "1 day"),
];

fn place(k: u8, seconds: f64) -> Point {
    at(
        LEFT + ACROSS * f64::from(k),
        FLOOR - TENFOLD * (seconds / 0.01).log10(),
    )
}

/// The bounds by k, a line for each distance; the seconds are on a logarithmic scale.
pub fn picture() -> String {
    let mut paper = Paper::default();
    let right = LEFT + ACROSS * f64::from(LAST_ROUND);
    for (seconds, words) in TIMES {
        let Point { y, .. } = place(0, seconds);
        paper.line("guide", at(LEFT, y), at(right, y));
        let by = at(LEFT - 8.0, y + 4.0);
        paper.write(&Label::level(words, "time", by, Anchor::End));
    }
    for k in turns() {
        let Point { x, .. } = place(k, 1.0);
        let under = at(x, FLOOR + 18.0);
        paper.write(&Label::level(k.to_string(), "k", under, Anchor::Middle));
    }
    let title = "Round k+1 is set so long after round 1 at the latest, by k and by the distance to the source";
    paper.write(&Label::level(
        title,
        "title",
        at(LEFT, TOP - 10.0),
        Anchor::Start,
    ));
    let under = at(LEFT + ACROSS * 8.0, FLOOR + 38.0);
    paper.write(&Label::level("k", "k", under, Anchor::Middle));
    for d in DISTANCES {
        curve(&mut paper, d);
    }
    paper.finish(title, STYLE, WIDTH, HEIGHT)
}

fn curve(paper: &mut Paper, d: u64) {
    let points: Vec<Point> = turns()
        .map(|k| {
            let ticks = bound(&Params::STANDARD, d, k);
            place(k, ticks as f64 / TICKS_A_SECOND as f64)
        })
        .collect();
    let rest: Vec<(char, Point)> = points[1..].iter().map(|&point| ('L', point)).collect();
    paper.path("bound", points[0], &rest);
    for &point in &points {
        paper.dot("turn", point, 2.5);
    }
    let Point { x, y } = points[points.len() - 1];
    let beside = at(x + 10.0, y + 4.0);
    paper.write(&Label::level(
        format!("{d} ms"),
        "distance",
        beside,
        Anchor::Start,
    ));
}
