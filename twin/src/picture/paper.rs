//! The paper that a picture is drawn on: lines, boxes and words as SVG, and which
//! parts of it are taken already.

use std::collections::HashSet;

/// A place on the paper, in pixels; y grows downwards.
#[derive(Clone, Copy, Debug, PartialEq)]
pub struct Point {
    pub x: f64,
    pub y: f64,
}

pub fn at(x: f64, y: f64) -> Point {
    Point { x, y }
}

/// Words that stand on a baseline. The baseline runs to the right, or along
/// `along`, a direction of length 1.
#[derive(Clone, Debug)]
pub struct Label {
    pub words: String,
    pub class: &'static str,
    pub at: Point,
    pub anchor: Anchor,
    pub along: Point,
}

/// Which part of the words stands at the label's place.
#[derive(Clone, Copy, Debug, PartialEq)]
pub enum Anchor {
    Start,
    Middle,
    End,
}

/// The size of the letters, and a width that no common font's letters pass on average.
const LETTERS: f64 = 12.0;
const LETTER_WIDTH: f64 = 0.6 * LETTERS;

/// The letters' height over the baseline, and below it.
const ABOVE: f64 = 9.0;
const BELOW: f64 = 2.0;

/// The paper is looked at in squares of so many pixels.
const SQUARE: f64 = 3.0;

/// Steps that miss no square.
const STEP: f64 = 2.0;

/// A square with words costs a label as much as so many squares with a line.
const WORDS_COST: usize = 1000;

/// How wide words are at most.
pub fn width_of(words: &str) -> f64 {
    words.chars().count() as f64 * LETTER_WIDTH
}

impl Label {
    pub fn level(words: impl Into<String>, class: &'static str, at: Point, anchor: Anchor) -> Self {
        Label {
            words: words.into(),
            class,
            at,
            anchor,
            along: Point { x: 1.0, y: 0.0 },
        }
    }

    /// The squares that the words cover, with so much around them.
    fn squares(&self, around: f64) -> Vec<(i64, i64)> {
        let width = width_of(&self.words);
        let start = match self.anchor {
            Anchor::Start => 0.0,
            Anchor::Middle => -width / 2.0,
            Anchor::End => -width,
        };
        let (across, down) = (width + 2.0 * around, ABOVE + BELOW + 2.0 * around);
        let mut squares = Vec::new();
        for step in 0..=(across / STEP) as usize {
            for fall in 0..=(down / STEP) as usize {
                let run = start - around + STEP * step as f64;
                let drop = STEP * fall as f64 - ABOVE - around;
                squares.push(square(at(
                    self.at.x + run * self.along.x - drop * self.along.y,
                    self.at.y + run * self.along.y + drop * self.along.x,
                )));
            }
        }
        squares.sort_unstable();
        squares.dedup();
        squares
    }
}

fn square(point: Point) -> (i64, i64) {
    (
        (point.x / SQUARE).floor() as i64,
        (point.y / SQUARE).floor() as i64,
    )
}

/// The direction of length 1 from one place to another, and how far it is.
pub fn towards(from: Point, to: Point) -> (Point, f64) {
    let (dx, dy) = (to.x - from.x, to.y - from.y);
    let far = (dx * dx + dy * dy).sqrt();
    if far == 0.0 {
        return (at(1.0, 0.0), 0.0);
    }
    (at(dx / far, dy / far), far)
}

#[derive(Default)]
pub struct Paper {
    drawn: String,
    words: HashSet<(i64, i64)>,
    lines: HashSet<(i64, i64)>,
}

/// What is drawn.
impl Paper {
    pub fn line(&mut self, class: &str, from: Point, to: Point) {
        self.drawn.push_str(&format!(
            "<line class=\"{class}\" x1=\"{}\" y1=\"{}\" x2=\"{}\" y2=\"{}\"/>\n",
            short(from.x),
            short(from.y),
            short(to.x),
            short(to.y)
        ));
    }

    pub fn dot(&mut self, class: &str, middle: Point, radius: f64) {
        self.drawn.push_str(&format!(
            "<circle class=\"{class}\" cx=\"{}\" cy=\"{}\" r=\"{}\"/>\n",
            short(middle.x),
            short(middle.y),
            short(radius)
        ));
    }

    /// A box by its top left corner.
    pub fn bar(&mut self, class: &str, corner: Point, width: f64, height: f64) {
        self.drawn.push_str(&format!(
            "<rect class=\"{class}\" x=\"{}\" y=\"{}\" width=\"{}\" height=\"{}\"/>\n",
            short(corner.x),
            short(corner.y),
            short(width),
            short(height)
        ));
    }

    /// A filled shape, or a curve: the data of an SVG path from a place on.
    pub fn path(&mut self, class: &str, start: Point, rest: &[(char, Point)]) {
        let mut data = format!("M{} {}", short(start.x), short(start.y));
        for (command, point) in rest {
            match command {
                ' ' => data.push(' '),
                command => data.push(*command),
            }
            data.push_str(&format!("{} {}", short(point.x), short(point.y)));
        }
        self.drawn
            .push_str(&format!("<path class=\"{class}\" d=\"{data}\"/>\n"));
    }

    /// A small x.
    pub fn cross(&mut self, class: &str, middle: Point, arm: f64) {
        let Point { x, y } = middle;
        self.line(class, at(x - arm, y - arm), at(x + arm, y + arm));
        self.line(class, at(x - arm, y + arm), at(x + arm, y - arm));
    }

    /// The words of a label; what they cover is taken from here on.
    pub fn write(&mut self, label: &Label) {
        self.words.extend(label.squares(0.0));
        let anchor = match label.anchor {
            Anchor::Start => "",
            Anchor::Middle => " text-anchor=\"middle\"",
            Anchor::End => " text-anchor=\"end\"",
        };
        let place = if label.along.y == 0.0 {
            format!("x=\"{}\" y=\"{}\"", short(label.at.x), short(label.at.y))
        } else {
            let Point { x, y } = label.along;
            format!(
                "transform=\"matrix({} {} {} {} {} {})\"",
                fine(x),
                fine(y),
                fine(-y),
                fine(x),
                short(label.at.x),
                short(label.at.y)
            )
        };
        self.drawn.push_str(&format!(
            "<text class=\"{}\"{anchor} {place}>{}</text>\n",
            label.class,
            escaped(&label.words)
        ));
    }

    /// The whole SVG file.
    pub fn finish(self, title: &str, style: &str, width: f64, height: f64) -> String {
        let (width, height) = (short(width), short(height));
        format!(
            "<svg xmlns=\"http://www.w3.org/2000/svg\" width=\"{width}\" height=\"{height}\" \
             viewBox=\"0 0 {width} {height}\" role=\"img\">\n<title>{}</title>\n\
             <style>\n{style}</style>\n\
             <rect class=\"paper\" width=\"{width}\" height=\"{height}\"/>\n{}</svg>\n",
            escaped(title),
            self.drawn
        )
    }
}

/// What is taken.
impl Paper {
    /// Words had better not stand on this line.
    pub fn avoid(&mut self, from: Point, to: Point) {
        let (way, far) = towards(from, to);
        for step in 0..=(far / STEP) as usize {
            let run = STEP * step as f64;
            let point = at(from.x + run * way.x, from.y + run * way.y);
            self.lines.insert(square(point));
        }
    }

    /// How bad it is to write this label, with lines so far away: 0 where its place is free.
    fn cost(&self, label: &Label, around: f64) -> usize {
        let taken = |around: f64, by: &HashSet<(i64, i64)>| {
            let squares = label.squares(around);
            squares.iter().filter(|square| by.contains(square)).count()
        };
        WORDS_COST * taken(0.0, &self.words) + taken(around, &self.lines)
    }

    /// Writes the best of the labels, the first of those that are equally good.
    pub fn write_best(&mut self, labels: &[Label], around: f64) {
        let best = labels.iter().min_by_key(|label| self.cost(label, around));
        if let Some(best) = best {
            self.write(best);
        }
    }
}

/// A number with at most one decimal.
fn short(value: f64) -> String {
    decimal((value * 10.0).round() as i64, 10)
}

/// A number with at most four decimals.
fn fine(value: f64) -> String {
    decimal((value * 10_000.0).round() as i64, 10_000)
}

fn decimal(value: i64, parts: i64) -> String {
    let sign = if value < 0 { "-" } else { "" };
    let (whole, rest) = (value.abs() / parts, value.abs() % parts);
    if rest == 0 {
        return format!("{sign}{whole}");
    }
    let digits = format!("{:0width$}", rest, width = parts.ilog10() as usize);
    format!("{sign}{whole}.{}", digits.trim_end_matches('0'))
}

fn escaped(words: &str) -> String {
    words
        .replace('&', "&amp;")
        .replace('<', "&lt;")
        .replace('>', "&gt;")
        .replace('"', "&quot;")
}
