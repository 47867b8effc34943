//! A trace as a picture: time runs downwards, each end has a column, messages are
//! arrows, waits are bars beside the column of their end.

mod layout;
mod panel;
pub(crate) mod paper;
mod play;
mod story;

use crate::message;
use layout::Layout;
use panel::{class_of, Panel, BEYOND_BAR, DOT, HALF_BAR, HALF_LETTER};
use paper::{at, width_of, Anchor, Label, Paper};
use story::Story;

/// How the classes of the drawing look.
const STYLE: &str = "\
text { font: 12px Helvetica, Arial, 'DejaVu Sans', sans-serif; fill: #333; \
paint-order: stroke; stroke: #fff; stroke-width: 3px; stroke-linejoin: round; }
.paper { fill: #fff; }
.end { font-weight: bold; font-size: 14px; fill: #111; }
.heading { font-size: 14px; fill: #111; }
.clock { fill: #555; }
.small { font-size: 11px; fill: #888; }
.ticks { font-size: 11px; font-style: italic; fill: #999; }
.guide { stroke: #ececec; }
.member { stroke: #333; stroke-width: 2; }
.outside { stroke: #bbb; stroke-width: 1.5; }
.crashed { stroke: #d9a0a0; stroke-width: 1.5; }
.shortened { stroke-dasharray: 2 5; }
.call { fill: #333; }
.quiet { fill: #888; }
.hollow { fill: #fff; stroke: #888; stroke-width: 1.3; }
.got { fill: #111; font-weight: bold; }
.handed { fill: #111; }
.refused { fill: #b3261e; }
.cross { stroke: #b3261e; stroke-width: 1.8; }
.data, .rqst, .repl, .sess, .bytes { stroke-width: 1.6; fill: none; }
.data { stroke: #1f5fa8; } .rqst { stroke: #c2570c; } .repl { stroke: #1b7f4b; }
.sess { stroke: #6b5b95; } .bytes { stroke: #777; }
.lost { stroke-dasharray: 5 3; }
.headdata { fill: #1f5fa8; } .headrqst { fill: #c2570c; } .headrepl { fill: #1b7f4b; }
.headsess { fill: #6b5b95; } .headbytes { fill: #777; }
.request { fill: #f8d3b0; stroke: #c2570c; }
.reply { fill: #bfe3cd; stroke: #1b7f4b; }
.requests { fill: #a84a08; }
.replies { fill: #156a3e; }
";

/// What is free between two stories.
const BETWEEN: f64 = 18.0;

/// The height of the key under the picture.
const KEY: f64 = 40.0;

/// Draws a trace as an SVG file, up to a line that is bad; gives that line's number too.
pub fn draw(trace: &[u8]) -> (String, Option<usize>) {
    let (mut stories, bad) = play::play(trace);
    stories.retain(|story| !story.calls.is_empty());
    stories.iter_mut().for_each(Story::join_waits);
    (draw_stories(&stories), bad)
}

/// The stories under each other.
fn draw_stories(stories: &[Story]) -> String {
    let mut paper = Paper::default();
    if stories.is_empty() {
        let none = Label::level("no calls", "small", at(20.0, 30.0), Anchor::Start);
        paper.write(&none);
        return paper.finish("A trace without calls", STYLE, 120.0, 50.0);
    }
    let (mut y, mut width) = (0.0, 0.0_f64);
    for (place, story) in stories.iter().enumerate() {
        if place > 0 {
            y += BETWEEN;
        }
        let layout = Layout::of(story, y);
        Panel {
            story,
            layout: &layout,
            paper: &mut paper,
        }
        .draw();
        (y, width) = (layout.bottom, width.max(layout.width));
    }
    draw_key(&mut paper, y + KEY / 2.0);
    let calls: usize = stories.iter().map(|story| story.calls.len()).sum();
    paper.finish(&format!("A trace of {calls} calls"), STYLE, width, y + KEY)
}

/// What the signs mean.
fn draw_key(paper: &mut Paper, y: f64) {
    let mut x = 24.0;
    let mut key = |paper: &mut Paper, words: &str| {
        let place = at(x + 18.0, y + HALF_LETTER);
        let label = Label::level(words, "small", place, Anchor::Start);
        paper.write(&label);
        let sign = x + 6.0;
        x += 18.0 + width_of(words) + 14.0;
        sign
    };
    let sign = key(paper, "request waits");
    paper.bar(
        "request",
        at(sign - HALF_BAR, y - 7.0),
        2.0 * HALF_BAR,
        14.0,
    );
    let sign = key(paper, "reply waits");
    paper.bar("reply", at(sign - HALF_BAR, y - 7.0), 2.0 * HALF_BAR, 14.0);
    let sign = key(paper, "due");
    let (left, right) = (at(sign - BEYOND_BAR, y), at(sign + BEYOND_BAR, y));
    paper.line(class_of(message::RQST), left, right);
    let sign = key(paper, "wait dropped");
    paper.cross(class_of(message::RQST), at(sign, y), 4.0);
    let sign = key(paper, "put out, heard by nobody");
    paper.cross("cross", at(sign, y), 5.0);
    let sign = key(paper, "handed out");
    paper.dot("handed", at(sign, y), DOT + 2.0);
    let sign = key(paper, "time shortened");
    paper.line("member shortened", at(sign, y - 9.0), at(sign, y + 9.0));
}
