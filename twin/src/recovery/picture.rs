//! How near the runs came to the bounds, as a picture: for each claim what share of its bound was used.

use super::judge::CLAIMS;
use super::tally::{Counted, Tally};
use crate::picture::paper::{at, Anchor, Label, Paper};

const STYLE: &str = "\
text { font: 12px Helvetica, Arial, 'DejaVu Sans', sans-serif; fill: #333; }
.paper { fill: #fff; }
.guide { stroke: #ececec; }
.bound { stroke: #b3261e; stroke-width: 1.2; }
.most { stroke: #1f5fa8; stroke-width: 1.6; }
.half { fill: #9dbbdc; }
.middle { stroke: #1f5fa8; stroke-width: 2.4; }
.greatest { fill: #c2570c; }
";

const WIDTH: f64 = 900.0;
const TOP: f64 = 70.0;
const ROW: f64 = 26.0;

/// The field runs from 0 to the whole bound.
const LEFT: f64 = 220.0;
const FIELD: f64 = 420.0;

/// The columns of numbers at the right.
const COLUMNS: [f64; 3] = [730.0, 800.0, 880.0];

fn across(percent: f64) -> f64 {
    LEFT + FIELD * percent / 100.0
}

/// The picture of a tally.
pub fn picture(tally: &Tally) -> String {
    let mut paper = Paper::default();
    let floor = TOP + ROW * CLAIMS.len() as f64;
    let last = tally.from + tally.runs - 1;
    let title = format!(
        "What share of its bound was used, in {} random networks (seeds {} to {last})",
        tally.runs, tally.from
    );
    write(&mut paper, &title, 10.0, 22.0, Anchor::Start);
    let words = "bar: the middle half, tick: the median, line: 90 of 100, dot: the greatest";
    write(&mut paper, words, 10.0, 40.0, Anchor::Start);
    for percent in [0.0, 25.0, 50.0, 75.0, 100.0] {
        let x = across(percent);
        let class = if percent == 100.0 { "bound" } else { "guide" };
        paper.line(class, at(x, TOP - 8.0), at(x, floor - 8.0));
        write(
            &mut paper,
            &format!("{percent} %"),
            x,
            TOP - 14.0,
            Anchor::Middle,
        );
    }
    for (x, words) in COLUMNS.into_iter().zip(["instances", "beyond", "exactly"]) {
        write(&mut paper, words, x, TOP - 14.0, Anchor::End);
    }
    for (row, &(claim, name)) in CLAIMS.iter().enumerate() {
        let y = TOP + ROW * (row as f64 + 0.4);
        write(&mut paper, name, 10.0, y + 4.0, Anchor::Start);
        strip(&mut paper, &tally.claim(claim), y);
    }
    paper.finish(&title, STYLE, WIDTH, floor + 10.0)
}

fn write(paper: &mut Paper, words: &str, x: f64, y: f64, anchor: Anchor) {
    paper.write(&Label::level(words, "words", at(x, y), anchor));
}

/// What was counted of a claim, on the level y.
fn strip(paper: &mut Paper, counted: &Counted, y: f64) {
    let quantile = |of_100: u64| across(counted.quantile(of_100) as f64);
    if counted.held > counted.beyond {
        paper.line("most", at(quantile(5), y), at(quantile(95), y));
        let (from, to) = (quantile(25), quantile(75));
        paper.bar("half", at(from, y - 6.0), (to - from).max(1.0), 12.0);
        let middle = quantile(50);
        paper.line("middle", at(middle, y - 7.0), at(middle, y + 7.0));
        paper.dot("greatest", at(across(counted.greatest), y), 4.0);
    }
    let numbers = [counted.held, counted.beyond, counted.exact];
    for (x, number) in COLUMNS.into_iter().zip(numbers) {
        write(paper, &number.to_string(), x, y + 4.0, Anchor::End);
    }
}
