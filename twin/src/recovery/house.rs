//! Seconds from a lost cue to its repair, with the house's parameters: the table and the plot of docs/RECOVERY.md.

use std::fmt::Write;

use super::bounds::Terms;
use super::Time;
use crate::end::Params;
use crate::picture::paper::{at, Anchor, Label, Paper, Point};
use crate::waiting::{seconds, DISTANCES, TICKS_A_SECOND};

/// Λ: a host that fires every millisecond.
const LATE: Time = 4;

/// The times between two reports that the table shows, in seconds, and the one of the plot.
const PERIODS: [u64; 3] = [1, 5, 30];
const PLOTTED: u64 = 5;

/// What is lost beside the cue.
#[derive(Clone, Copy, Debug, PartialEq, Eq)]
pub enum Lost {
    /// Nothing, for Y before it is first asked for either.
    Nothing,
    /// Something at so many times after it is first asked for, and before that whatever.
    Times(u32),
}

/// All distances are d milliseconds, which is also the longest way.
pub fn terms(d: u64) -> Terms {
    let d = d as i64;
    Terms::even(&Params::STANDARD, 4 * d, LATE, d)
}

/// Ticks from the first asking to the cue: Steady after a heard request, or Recovers.
pub fn from_asking(d: u64, lost: Lost) -> Time {
    let terms = terms(d);
    match (lost, terms.long_round()) {
        (Lost::Times(losses), Some(long)) => terms.recovers(0, long, losses),
        _ => terms.steady(0, 2),
    }
}

/// Ticks from a cue that a member has to the cue at the one that lacks it, with a report every so many seconds and none missed.
pub fn from_cue(d: u64, lost: Lost, period: u64) -> Time {
    let period = (period * TICKS_A_SECOND) as Time;
    terms(d).detected(0, period, 0) + from_asking(d, lost)
}

/// The rows of a distance.
fn rows() -> impl Iterator<Item = (Lost, String)> {
    let times = (0..=3).map(|losses| (Lost::Times(losses), format!("k = {losses}")));
    [(Lost::Nothing, String::from("steady"))]
        .into_iter()
        .chain(times)
}

/// The table.
pub fn table() -> String {
    let mut text = String::from("| distance | losses | from its first asking |");
    for period in PERIODS {
        let _ = write!(text, " from the cue, P = {period} s |");
    }
    let _ = writeln!(text, "\n|---|---|---:|{}", "---:|".repeat(PERIODS.len()));
    for d in DISTANCES {
        for (lost, words) in rows() {
            let asking = seconds(from_asking(d, lost) as u64);
            let _ = write!(text, "| {d} ms | {words} | {asking} |");
            for period in PERIODS {
                let _ = write!(text, " {} |", seconds(from_cue(d, lost, period) as u64));
            }
            text.push('\n');
        }
    }
    text
}

const STYLE: &str = "\
text { font: 12px Helvetica, Arial, 'DejaVu Sans', sans-serif; fill: #333; }
.paper { fill: #fff; }
.guide { stroke: #ececec; }
.asking { stroke: #1f5fa8; stroke-width: 1.6; fill: none; }
.cue { stroke: #c2570c; stroke-width: 1.6; fill: none; stroke-dasharray: 5 4; }
.asking-dot { fill: #1f5fa8; }
.cue-dot { fill: #c2570c; }
";

/// The plot's size, and the field in it.
const WIDTH: f64 = 760.0;
const HEIGHT: f64 = 440.0;
const LEFT: f64 = 80.0;
const TOP: f64 = 60.0;
const FLOOR: f64 = 380.0;

/// Pixels from one place to the next, and for ten times the seconds.
const ACROSS: f64 = 90.0;
const TENFOLD: f64 = 75.0;

/// The losses that the plot shows, and the times that have a line; a tenth of a second is the floor.
const LOSSES: u32 = 5;
const TIMES: [(f64, &str); 7] = [
    (0.1, "0.1 s"),
    (0.3, "0.3 s"),
    (1.0, "1 s"),
    (10.0, "10 s"),
    (60.0, "1 min"),
    (600.0, "10 min"),
    (1800.0, "30 min"),
];

fn place(column: u32, seconds: f64) -> Point {
    at(
        LEFT + 30.0 + ACROSS * f64::from(column),
        FLOOR - TENFOLD * (seconds / 0.1).log10(),
    )
}

/// The columns of the plot.
fn columns() -> impl Iterator<Item = (u32, Lost, String)> {
    let times =
        (0..=LOSSES).map(|losses| (losses + 1, Lost::Times(losses), format!("k = {losses}")));
    [(0, Lost::Nothing, String::from("steady"))]
        .into_iter()
        .chain(times)
}

/// The seconds by losses, two lines for each distance; they are on a logarithmic scale.
pub fn plot() -> String {
    let mut paper = Paper::default();
    let title = "A lost cue is there so long after at the latest, by losses and by distance";
    field(&mut paper, title);
    for d in DISTANCES {
        curve(&mut paper, ["asking", "asking-dot"], |lost| {
            from_asking(d, lost)
        });
        curve(&mut paper, ["cue", "cue-dot"], |lost| {
            from_cue(d, lost, PLOTTED)
        });
        let ticks = from_asking(d, Lost::Times(LOSSES));
        let end = place(LOSSES + 1, ticks as f64 / TICKS_A_SECOND as f64);
        let beside = at(end.x + 24.0, end.y + 4.0);
        let words = format!("{d} ms");
        paper.write(&Label::level(words, "distance", beside, Anchor::Start));
    }
    paper.finish(title, STYLE, WIDTH, HEIGHT)
}

/// The lines of the times, and all words but the distances.
fn field(paper: &mut Paper, title: &str) {
    let right = place(LOSSES + 1, 1.0).x + 20.0;
    for (seconds, words) in TIMES {
        let Point { y, .. } = place(0, seconds);
        paper.line("guide", at(LEFT, y), at(right, y));
        let by = at(LEFT - 8.0, y + 4.0);
        paper.write(&Label::level(words, "time", by, Anchor::End));
    }
    for (column, _, words) in columns() {
        let under = at(place(column, 1.0).x, FLOOR + 18.0);
        paper.write(&Label::level(words, "losses", under, Anchor::Middle));
    }
    let lines = format!(
        "solid: from its first asking; dashed: from the cue, with a report every {PLOTTED} s and none missed"
    );
    for (words, above) in [(title, 38.0), (lines.as_str(), 20.0)] {
        let over = at(LEFT, TOP - above);
        paper.write(&Label::level(words, "title", over, Anchor::Start));
    }
}

fn curve(paper: &mut Paper, [line, dot]: [&str; 2], ticks: impl Fn(Lost) -> Time) {
    let points: Vec<Point> = columns()
        .map(|(column, lost, _)| place(column, ticks(lost) as f64 / TICKS_A_SECOND as f64))
        .collect();
    let rest: Vec<(char, Point)> = points[1..].iter().map(|&point| ('L', point)).collect();
    paper.path(line, points[0], &rest);
    for &point in &points {
        paper.dot(dot, point, 2.5);
    }
}
