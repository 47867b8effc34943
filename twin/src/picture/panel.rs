//! One story of a trace, drawn where its layout has it.

use super::layout::{Column, Layout, Side, LINE};
use super::paper::{at, towards, Anchor, Label, Paper, Point};
use super::story::{Awaited, Call, Flight, Story, Tone, Wait};
use crate::end::Status;
use crate::message;

/// The radius of a call's dot, and how far from it an arrow stays.
pub const DOT: f64 = 3.0;
const CLEAR: f64 = 6.0;

/// An arrow's head, and how far a message goes that its own sender hears.
const HEAD_LENGTH: f64 = 9.0;
const HALF_HEAD: f64 = 3.8;
const LOOP: f64 = 42.0;

/// A bar's half width, and what is free at each of its ends.
pub const HALF_BAR: f64 = 3.0;
const BAR_END: f64 = 2.0;

/// Half the length of the dash at a due time.
pub const BEYOND_BAR: f64 = 5.0;

/// Which part of the way to the next column a message goes that is heard by nobody, or
/// comes from outside the trace; how far it goes at most, and how far down.
const STUB_SHARE: f64 = 0.45;
const LONGEST_STUB: f64 = 170.0;
const STUB_FALL: f64 = 10.0;

/// From a baseline up to the middle of its letters, and from an arrow to its words.
pub const HALF_LETTER: f64 = 4.0;
const OVER_ARROW: f64 = 5.0;

/// The words of calls and waits had better be so far from lines.
const FROM_LINES: f64 = 2.0;

/// The words of a wait look for a free place so many half lines down their bar.
const FURTHER_DOWN: u8 = 16;

/// A heading is drawn up to so many letters.
const LONGEST_HEADING: usize = 110;

/// One story on its part of the paper.
pub struct Panel<'a> {
    pub story: &'a Story,
    pub layout: &'a Layout,
    pub paper: &'a mut Paper,
}

impl Panel<'_> {
    /// From the back to the front; the words that have a choice come last.
    pub fn draw(&mut self) {
        self.write_heading();
        self.draw_clocks();
        for column in &self.layout.columns {
            self.draw_column(column);
        }
        for (wait, lane) in self.story.waits.iter().zip(&self.layout.lane_of) {
            self.draw_bar(wait, *lane);
        }
        let mut labels = Vec::new();
        for flight in &self.story.flights {
            labels.push(self.draw_flight(flight));
        }
        for place in 0..self.story.calls.len() {
            labels.extend(self.draw_stranger(place));
            self.draw_mark(place);
        }
        for place in 0..self.story.calls.len() {
            self.write_call(place);
        }
        for place in 0..self.story.calls.len() {
            self.write_waits(place);
        }
        for choice in labels {
            self.paper.write_best(&choice, 0.0);
        }
    }

    fn write_heading(&mut self) {
        let place = at(24.0, self.layout.top);
        let words: String = self.story.heading.chars().take(LONGEST_HEADING).collect();
        if !words.is_empty() {
            let label = Label::level(words, "heading", place, Anchor::Start);
            self.paper.write(&label);
        }
    }

    /// The clocks at the left, a faint line for each, and the ticks that are not shown.
    fn draw_clocks(&mut self) {
        let x = self.layout.clocks - 14.0;
        let head = at(x, self.layout.top + 24.0);
        let clock = Label::level("clock", "small", head, Anchor::End);
        self.paper.write(&clock);
        let mut last: Option<(u64, f64)> = None;
        for row in &self.layout.rows {
            if let (Some(ticks), Some((_, above))) = (row.shortened, last) {
                let middle = at(x, (above + row.y) / 2.0 + HALF_LETTER);
                let words = format!("{ticks} ticks");
                let label = Label::level(words, "ticks", middle, Anchor::End);
                self.paper.write(&label);
            }
            if last.is_none_or(|(clock, _)| clock != row.clock) {
                let (from, to) = (at(x + 6.0, row.y), at(self.layout.width - 8.0, row.y));
                self.paper.line("guide", from, to);
                let place = at(x, row.y + HALF_LETTER);
                let label = Label::level(row.clock.to_string(), "clock", place, Anchor::End);
                self.paper.write(&label);
            }
            last = Some((row.clock, row.y));
        }
    }

    /// An end's name and its line, by status; dashed where time is shortened.
    fn draw_column(&mut self, column: &Column) {
        let calls = self.story.calls.iter().enumerate();
        let mut calls: Vec<(usize, &Call)> = calls.filter(|(_, c)| c.end == column.end).collect();
        calls.sort_by_key(|(place, _)| self.layout.row_of[*place]);
        let Some((_, first)) = calls.first() else {
            return;
        };
        self.write_end(column, first);
        let mut class = line_class(first.was);
        let mut from = self.layout.top + 32.0;
        let mut calls = calls.into_iter().peekable();
        for (place, row) in self.layout.rows.iter().enumerate() {
            let dashes = if row.shortened.is_some() {
                " shortened"
            } else {
                ""
            };
            let line = format!("{class}{dashes}");
            self.paper
                .line(&line, at(column.x, from), at(column.x, row.y));
            from = row.y;
            while let Some((_, call)) = calls.next_if(|(c, _)| self.layout.row_of[*c] == place) {
                if call.was != call.status {
                    class = line_class(call.status);
                }
            }
        }
        let to = at(column.x, self.layout.bottom);
        self.paper.line(class, at(column.x, from), to);
        self.paper.avoid(at(column.x, self.layout.top + 32.0), to);
    }

    fn write_end(&mut self, column: &Column, first: &Call) {
        let words = match usize::from(first.host) == column.end {
            true => format!("end {}", column.end),
            false => format!("end {}, host {}", column.end, first.host),
        };
        let place = at(column.x, self.layout.top + 24.0);
        let label = Label::level(words, "end", place, Anchor::Middle);
        self.paper.write(&label);
    }

    /// A wait from its setting to its end, with a dash at its due time where it lasts longer,
    /// and a cross at its end where it was dropped.
    fn draw_bar(&mut self, wait: &Wait, lane: usize) {
        let column = &self.layout.columns[self.layout.column_of(wait.end)];
        let x = column.x + column.side.way() * Layout::lane_offset(lane);
        let class = match wait.what {
            Awaited::Request { .. } => "request",
            Awaited::Reply => "reply",
        };
        let (from, to) = self.layout.bar_of(wait);
        let (top, bottom) = (from + BAR_END, to - BAR_END);
        let height = (bottom - top).max(1.0);
        let corner = at(x - HALF_BAR, top);
        self.paper.bar(class, corner, 2.0 * HALF_BAR, height);
        self.paper.avoid(at(x, top), at(x, top + height));
        let due = self.layout.y_at(wait.due);
        if due > top && due < bottom - BAR_END {
            let (left, right) = (at(x - BEYOND_BAR, due), at(x + BEYOND_BAR, due));
            self.paper.line(arrow_class_of(wait.what), left, right);
        }
        if wait.to.is_some() && !wait.fired {
            self.paper
                .cross(arrow_class_of(wait.what), at(x, bottom - 4.0), 4.0);
        }
    }

    /// A message: an arrow to each call that heard it, or one that breaks off. Gives where
    /// its words may stand.
    fn draw_flight(&mut self, flight: &Flight) -> Vec<Label> {
        let from = self.layout.column_of(self.story.calls[flight.from].end);
        let start = at(self.layout.columns[from].x, self.layout.y_of(flight.from));
        let class = class_of(flight.sent.kind);
        if flight.heard.is_empty() {
            let stop = at(start.x + self.stub(from), start.y + STUB_FALL);
            self.draw_arrow(&format!("{class} lost"), start, stop, false);
            self.paper.cross("cross", stop, 5.0);
            let words = format!("{} lost", flight.sent.words);
            return along(&words, start, stop, &[0.55, 0.45, 0.65]);
        }
        let mut ways: Vec<Point> = Vec::new();
        for call in &flight.heard {
            let to = self.layout.column_of(self.story.calls[*call].end);
            let stop = at(self.layout.columns[to].x, self.layout.y_of(*call));
            if to == from {
                self.draw_loop(class, self.layout.columns[from].side, start, stop);
            } else {
                self.draw_arrow(class, start, stop, true);
                ways.push(stop);
            }
        }
        ways.sort_by(|a, b| (a.x - start.x).abs().total_cmp(&(b.x - start.x).abs()));
        if ways.is_empty() {
            ways.push(at(start.x + self.stub(from), start.y));
        }
        let shares = [0.5, 0.42, 0.58, 0.34, 0.66, 0.26, 0.74];
        let choice = |stop: &Point| along(&flight.sent.words, start, *stop, &shares);
        ways.iter().flat_map(choice).collect()
    }

    /// How far from a column a message breaks off: to the side where its words are not.
    fn stub(&self, number: usize) -> f64 {
        let columns = &self.layout.columns;
        let side = columns[number].side;
        let next = match side {
            Side::Left => columns.get(number + 1),
            Side::Right => columns.get(number.wrapping_sub(1)),
        };
        let far = next.map_or(LONGEST_STUB, |next| {
            STUB_SHARE * (next.x - columns[number].x).abs()
        });
        -side.way() * far.min(LONGEST_STUB)
    }

    fn draw_arrow(&mut self, class: &str, from: Point, to: Point, head: bool) {
        let (way, far) = towards(from, to);
        let point = |run: f64| at(from.x + run * way.x, from.y + run * way.y);
        let tip = if head { far - CLEAR } else { far };
        let stop = if head { tip - 6.0 } else { tip };
        self.paper.line(class, point(DOT), point(stop));
        self.paper.avoid(from, to);
        if head {
            let back = point(tip - HEAD_LENGTH);
            let (x, y) = (HALF_HEAD * way.y, HALF_HEAD * way.x);
            let (left, right) = (at(back.x + x, back.y - y), at(back.x - x, back.y + y));
            self.draw_head(class, point(tip), left, right);
        }
    }

    fn draw_head(&mut self, class: &str, tip: Point, left: Point, right: Point) {
        let shape = [('L', left), ('L', right), ('L', tip)];
        self.paper.path(&format!("head{class}"), tip, &shape);
    }

    /// A message that its own sender hears, at the side where the sender's words are not.
    fn draw_loop(&mut self, class: &str, side: Side, from: Point, to: Point) {
        let way = -side.way();
        let (far, stop) = (from.x + way * LOOP, to.x + way * (CLEAR + 6.0));
        let curve = [
            ('C', at(far, from.y)),
            (' ', at(far, to.y)),
            (' ', at(stop, to.y)),
        ];
        self.paper.path(class, from, &curve);
        let (tip, back) = (to.x + way * CLEAR, to.x + way * (CLEAR + HEAD_LENGTH));
        let (left, right) = (at(back, to.y - HALF_HEAD), at(back, to.y + HALF_HEAD));
        self.draw_head(class, at(tip, to.y), left, right);
        self.paper.avoid(from, at(far, from.y));
        self.paper.avoid(to, at(far, to.y));
    }

    /// An arrow out of nowhere, for a message that no end of the trace put out.
    fn draw_stranger(&mut self, place: usize) -> Option<Vec<Label>> {
        let call = &self.story.calls[place];
        let sent = call.stranger.as_ref()?;
        let column = self.layout.column_of(call.end);
        let stop = at(self.layout.columns[column].x, self.layout.y_of(place));
        let start = at(stop.x + self.stub(column), stop.y - STUB_FALL);
        let class = class_of(sent.kind);
        self.draw_arrow(class, start, stop, true);
        self.paper.dot("hollow", start, DOT);
        Some(along(&sent.words, start, stop, &[0.45, 0.55, 0.35]))
    }

    /// The call's mark on its column.
    fn draw_mark(&mut self, place: usize) {
        let call = &self.story.calls[place];
        let column = &self.layout.columns[self.layout.column_of(call.end)];
        let middle = at(column.x, self.layout.y_of(place));
        match call.tone {
            Tone::Refused => self.paper.cross("cross", middle, 3.5),
            Tone::Quiet => self.paper.dot("hollow", middle, DOT),
            Tone::HandedOut => self.paper.dot("handed", middle, DOT + 2.0),
            Tone::Plain => self.paper.dot("call", middle, DOT),
        }
        if call.status == Status::Crashed && call.was != Status::Crashed {
            self.paper.cross("cross", middle, 6.0);
        }
    }

    /// The words of a call. Between two columns they stand at the side that is less crossed.
    fn write_call(&mut self, place: usize) {
        let call = &self.story.calls[place];
        let class = match call.tone {
            Tone::Plain => "call",
            Tone::HandedOut => "got",
            Tone::Quiet => "quiet",
            Tone::Refused => "refused",
        };
        let number = self.layout.column_of(call.end);
        let column = &self.layout.columns[number];
        let y = self.layout.y_of(place);
        let offset = self.layout.words_offset(self.story, call.end, y);
        let mut choice = vec![beside(column, column.side, offset, y, &call.words, class)];
        if number > 0 && number + 1 < self.layout.columns.len() {
            let clear = CLEAR + DOT;
            choice.push(beside(column, Side::Left, clear, y, &call.words, class));
        }
        if !call.words.is_empty() {
            self.paper.write_best(&choice, FROM_LINES);
        }
    }

    /// The words of the waits that a call sets, each on its own line; further down their
    /// bar where that line is crossed.
    fn write_waits(&mut self, place: usize) {
        let call = &self.story.calls[place];
        let column = &self.layout.columns[self.layout.column_of(call.end)];
        let mut top = self.layout.y_of(place);
        if !call.words.is_empty() {
            top += LINE;
        }
        for wait in self.story.waits.iter().filter(|wait| wait.from == place) {
            let class = match wait.what {
                Awaited::Request { .. } => "requests",
                Awaited::Reply => "replies",
            };
            let (_, bottom) = self.layout.bar_of(wait);
            let lower = (1..FURTHER_DOWN).map(|lines| top + LINE * f64::from(lines) / 2.0);
            let heights = [top].into_iter().chain(lower.filter(|y| *y < bottom));
            let label = |y: f64| {
                let offset = self.layout.words_offset(self.story, call.end, y);
                beside(column, column.side, offset, y, &wait.words(), class)
            };
            let choice: Vec<Label> = heights.map(label).collect();
            self.paper.write_best(&choice, FROM_LINES);
            top += LINE;
        }
    }
}

/// Words at a side of a column.
fn beside(
    column: &Column,
    side: Side,
    offset: f64,
    y: f64,
    words: &str,
    class: &'static str,
) -> Label {
    let anchor = match side {
        Side::Left => Anchor::End,
        Side::Right => Anchor::Start,
    };
    let place = at(column.x + side.way() * offset, y + HALF_LETTER);
    Label::level(words, class, place, anchor)
}

/// Words over or under an arrow at some shares of its way, always readable from the left.
fn along(words: &str, start: Point, stop: Point, shares: &[f64]) -> Vec<Label> {
    let (left, right) = if start.x <= stop.x {
        (start, stop)
    } else {
        (stop, start)
    };
    let (way, _) = towards(left, right);
    let place = |share: f64, over: f64| {
        let x = start.x + share * (stop.x - start.x) + over * way.y;
        let y = start.y + share * (stop.y - start.y) - over * way.x;
        Label {
            words: words.to_string(),
            class: "message",
            at: at(x, y),
            anchor: Anchor::Middle,
            along: way,
        }
    };
    let over = shares.iter().map(|share| place(*share, OVER_ARROW));
    let under = shares.iter().map(|share| place(*share, -OVER_ARROW - 9.0));
    over.chain(under).collect()
}

fn line_class(status: Status) -> &'static str {
    match status {
        Status::Member => "member",
        Status::Crashed => "crashed",
        Status::Idle | Status::Joining | Status::Leaving => "outside",
    }
}

pub fn class_of(kind: u8) -> &'static str {
    match kind {
        message::DATA => "data",
        // Kinds 21 and 22 ask as RQST does, and have its colour; kind 23 brings a cue as REPL does.
        message::RQST | message::XPRS | message::FTCH => "rqst",
        message::REPL | message::LATE => "repl",
        // Kind 24 tells of numbers as SESS does.
        message::SESS | message::ANNC => "sess",
        _ => "bytes",
    }
}

/// A wait has the colour of the message that it puts out.
fn arrow_class_of(what: Awaited) -> &'static str {
    match what {
        Awaited::Request { .. } => class_of(message::RQST),
        Awaited::Reply => class_of(message::REPL),
    }
}
