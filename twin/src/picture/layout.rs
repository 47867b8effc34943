//! Where everything of a story stands: rows for the clocks, a column for each end,
//! lanes beside a column for its waits.

use std::collections::BTreeMap;

use super::paper::width_of;
use super::story::{Story, Wait};

/// The height of a line of words, and what a row has around its lines.
pub const LINE: f64 = 15.0;
const AROUND: f64 = 11.0;

/// From a row's top to the middle of its first line, where its calls stand.
const FIRST_LINE: f64 = 12.0;

/// Between two clocks a tick is a pixel, up to this many.
const LONGEST_GAP: f64 = 46.0;

/// From a column to its first lane, and from lane to lane.
const TO_LANES: f64 = 9.0;
const LANE: f64 = 9.0;

/// From a column, or its outermost busy lane, to the words.
const TO_WORDS: f64 = 9.0;

/// The least distance between two columns, and the least width of a picture.
const LEAST_PITCH: f64 = 210.0;
const LEAST_WIDTH: f64 = 900.0;

/// What is left free at the right.
const MARGIN: f64 = 14.0;

/// The height over the first row for the names of the columns.
const HEAD: f64 = 44.0;

/// The height of a heading over them.
const HEADING: f64 = 26.0;

pub struct Row {
    pub clock: u64,
    /// Where the row's calls stand.
    pub y: f64,
    /// The ticks since the row before, where they are more than are shown.
    pub shortened: Option<u64>,
}

#[derive(Clone, Copy, Debug, PartialEq, Eq)]
pub enum Side {
    Left,
    Right,
}

pub struct Column {
    pub end: usize,
    pub x: f64,
    /// Where its lanes are.
    pub side: Side,
}

pub struct Layout {
    pub rows: Vec<Row>,
    /// For each call its row, for each wait its lane.
    pub row_of: Vec<usize>,
    pub lane_of: Vec<usize>,
    pub columns: Vec<Column>,
    /// Where the clocks end.
    pub clocks: f64,
    pub top: f64,
    pub bottom: f64,
    pub width: f64,
}

impl Side {
    /// -1 or 1: which way it is from the column.
    pub fn way(self) -> f64 {
        match self {
            Side::Left => -1.0,
            Side::Right => 1.0,
        }
    }
}

impl Layout {
    pub fn of(story: &Story, top: f64) -> Layout {
        let slots = slots(story);
        let mut keys: Vec<(u64, usize)> = slots.clone();
        keys.sort_unstable();
        keys.dedup();
        let row_of: Vec<usize> = slots
            .iter()
            .map(|key| keys.binary_search(key).unwrap_or(0))
            .collect();
        let top = if story.heading.is_empty() {
            top
        } else {
            top + HEADING
        };
        let (rows, bottom) = rows(story, &keys, &row_of, top + HEAD);
        let mut layout = Layout {
            clocks: clocks_width(&rows),
            lane_of: lanes(story, &row_of),
            rows,
            row_of,
            columns: Vec::new(),
            top,
            bottom,
            width: 0.0,
        };
        layout.set_columns(story);
        layout
    }

    pub fn column_of(&self, end: usize) -> usize {
        let place = self.columns.iter().position(|column| column.end == end);
        place.unwrap_or(0)
    }

    pub fn y_of(&self, call: usize) -> f64 {
        self.rows[self.row_of[call]].y
    }

    /// Where a clock between the rows' clocks is.
    pub fn y_at(&self, clock: u64) -> f64 {
        let after = self.rows.partition_point(|row| row.clock < clock);
        let Some(next) = self.rows.get(after) else {
            return self.bottom;
        };
        if next.clock == clock || after == 0 {
            return next.y;
        }
        let last = &self.rows[after - 1];
        let share = (clock - last.clock) as f64 / (next.clock - last.clock) as f64;
        last.y + share * (next.y - last.y)
    }

    /// How far from the column a lane's middle is.
    pub fn lane_offset(lane: usize) -> f64 {
        TO_LANES + LANE * lane as f64
    }

    /// Where a wait's bar begins and ends.
    pub fn bar_of(&self, wait: &Wait) -> (f64, f64) {
        let from = self.y_of(wait.from);
        let to = wait.to.map_or(self.bottom, |call| self.y_of(call));
        (from.min(to), from.max(to))
    }

    /// How far from an end's column words at this height have to be to pass the bars.
    pub fn words_offset(&self, story: &Story, end: usize, y: f64) -> f64 {
        let busy = story.waits.iter().zip(&self.lane_of).filter(|(wait, _)| {
            let (from, to) = self.bar_of(wait);
            wait.end == end && from <= y + LINE / 2.0 && y - LINE / 2.0 <= to
        });
        match busy.map(|(_, lane)| *lane).max() {
            Some(lane) => Layout::lane_offset(lane) + TO_WORDS,
            None => TO_WORDS,
        }
    }

    /// The first column has its words at its left, the others at their right; what is
    /// left of the width is between the columns.
    fn set_columns(&mut self, story: &Story) {
        let ends = story.ends();
        let needs: Vec<f64> = ends.iter().map(|end| self.need(story, *end)).collect();
        let mut x = self.clocks + needs.first().unwrap_or(&0.0);
        for (place, end) in ends.iter().enumerate() {
            let side = if place == 0 { Side::Left } else { Side::Right };
            self.columns.push(Column { end: *end, x, side });
            let words = if place == 0 { 0.0 } else { needs[place] };
            x += LEAST_PITCH.max(words + MARGIN);
        }
        let right = match (self.columns.last(), needs.last()) {
            (Some(column), Some(need)) if self.columns.len() > 1 => column.x + need,
            (Some(column), _) => column.x + LEAST_PITCH,
            _ => 0.0,
        };
        self.width = LEAST_WIDTH.max(right + MARGIN);
        let spare = self.width - right - MARGIN;
        let gaps = self.columns.len().saturating_sub(1).max(1) as f64;
        for (place, column) in self.columns.iter_mut().enumerate() {
            column.x += spare * place as f64 / gaps;
        }
    }

    /// The room that an end's words and lanes take.
    fn need(&self, story: &Story, end: usize) -> f64 {
        let mut need: f64 = 80.0;
        for (place, call) in story.calls.iter().enumerate() {
            if call.end == end {
                for (line, words) in lines(story, place).iter().enumerate() {
                    let y = self.y_of(place) + LINE * line as f64;
                    need = need.max(self.words_offset(story, end, y) + width_of(words));
                }
            }
        }
        need
    }
}

/// The lines of words at a call: its own, and those of the waits that it sets.
pub fn lines(story: &Story, call: usize) -> Vec<String> {
    let mut lines = Vec::new();
    if !story.calls[call].words.is_empty() {
        lines.push(story.calls[call].words.clone());
    }
    let begun = story.waits.iter().filter(|wait| wait.from == call);
    lines.extend(begun.map(Wait::words));
    lines
}

/// For each call its clock and its place among the calls of that clock: after the
/// end's call before, and after the call whose message it hears.
fn slots(story: &Story) -> Vec<(u64, usize)> {
    let mut source_of: BTreeMap<usize, usize> = BTreeMap::new();
    for flight in &story.flights {
        source_of.extend(flight.heard.iter().map(|call| (*call, flight.from)));
    }
    let mut slots: Vec<(u64, usize)> = Vec::new();
    let mut free: BTreeMap<(u64, usize), usize> = BTreeMap::new();
    for (place, call) in story.calls.iter().enumerate() {
        let mut slot = *free.get(&(call.clock, call.end)).unwrap_or(&0);
        if let Some((clock, source)) = source_of.get(&place).map(|from| slots[*from]) {
            if clock == call.clock {
                slot = slot.max(source + 1);
            }
        }
        free.insert((call.clock, call.end), slot + 1);
        slots.push((call.clock, slot));
    }
    slots
}

/// The rows from the top down, and where the last one ends.
fn rows(story: &Story, keys: &[(u64, usize)], row_of: &[usize], top: f64) -> (Vec<Row>, f64) {
    let mut heights = vec![1; keys.len()];
    for (call, row) in row_of.iter().enumerate() {
        heights[*row] = heights[*row].max(lines(story, call).len());
    }
    let mut rows: Vec<Row> = Vec::new();
    let mut y = top;
    for ((clock, _), height) in keys.iter().zip(heights) {
        let ticks = rows.last().map_or(0, |row| clock - row.clock);
        let gap = (ticks as f64).min(LONGEST_GAP);
        rows.push(Row {
            clock: *clock,
            y: y + gap + FIRST_LINE,
            shortened: Some(ticks).filter(|ticks| *ticks as f64 > LONGEST_GAP),
        });
        y += gap + AROUND + LINE * height as f64;
    }
    (rows, y)
}

/// The rows between which a wait lasts.
fn span(wait: &Wait, row_of: &[usize]) -> (usize, usize) {
    let from = row_of[wait.from];
    let to = wait.to.map_or(usize::MAX, |call| row_of[call]);
    (from.min(to), from.max(to))
}

/// Each wait has the lowest lane of its end that is free from its first row on, or the
/// one that its name had up to there.
fn lanes(story: &Story, row_of: &[usize]) -> Vec<usize> {
    let mut lanes: Vec<usize> = Vec::new();
    for (place, wait) in story.waits.iter().enumerate() {
        let (from, to) = span(wait, row_of);
        let before = story.waits[..place].iter().zip(&lanes);
        let (mut taken, mut same) = (Vec::new(), None);
        for (other, lane) in before.filter(|(other, _)| other.end == wait.end) {
            let (start, stop) = span(other, row_of);
            if start < to && from < stop || (start, stop) == (from, to) {
                taken.push(*lane);
            }
            let name = (other.source, other.first) == (wait.source, wait.first);
            if name && other.to == Some(wait.from) {
                same = Some(*lane);
            }
        }
        let free = (0..).find(|lane| !taken.contains(lane)).unwrap_or(0);
        let kept = same.filter(|lane| !taken.contains(lane));
        lanes.push(kept.unwrap_or(free));
    }
    lanes
}

/// The room for the clocks and for the ticks between them.
fn clocks_width(rows: &[Row]) -> f64 {
    let clocks = rows.iter().map(|row| width_of(&row.clock.to_string()));
    let ticks = rows.iter().filter_map(|row| {
        row.shortened
            .map(|ticks| width_of(&format!("{ticks} ticks")))
    });
    clocks.chain(ticks).fold(40.0, f64::max) + 26.0
}
