//! The pictures of traces: document 01's listing, and traces that are no script.

use std::io::Write;
use std::process::{Command, Stdio};

use twin::picture::draw;

/// Document 01's listing, and its stored picture.
const LISTING: &[u8] = include_bytes!("../../../crates/house/stdin");
const PICTURE: &str = include_str!("../../../docs/listing.svg");

/// Four ends: losses, a crash, a leave, a message that its sender hears, one of unknown
/// bytes, a state that is set, an opening that is refused, and a second start.
const FOUR: &str = "\
# Four <ends> & more
0 join 0
0 joined 0
1 join 0
1 joined 0
2 join 0
2 joined 1
3 join 2
0 send 10 1
1 hear 12 0
2 hear 12 0
0 send 20 2
0 send 30 3
0 send 40 4
1 hear 42 3
2 hear 45 3
0 hear 46 3
3 hear 46 3
1 report 60
0 hear 70 4
1 fire 402
0 hear 410 5
2 hear 411 5
3 crash 420
0 send 430 2001
0 fire 570
1 hear 580 6
2 hear 580 6
2 leave 600
1 hear 610 bytes 0102
1 hear 611 data 4 7 name 4 0 4 cue 1 2 3 4 5
8 copy 1
8 set waits 4 3 2 700 650
8 set span 4 0 3
8 hear 800 rqst 5 7 name 4 3 5
2 open 9 9 8 4 4 4 8
start
7 open 7 9 8 4 4 4 8
7 join 5
5 join 6
5 joined 6
5 hear 7 data 4 0 name 4 0 4 cue 0 0 0 0 0
5 hear 8 data 4 0 name 4 3 4 cue 0 0 0 0 0
";

fn drawn(trace: &str) -> String {
    let (picture, bad) = draw(trace.as_bytes());
    assert_eq!(bad, None);
    picture
}

#[test]
fn listing() {
    assert_eq!(draw(LISTING), (PICTURE.to_string(), None));
}

#[test]
fn program() {
    let (svg, succeeded) = run(LISTING);
    assert!(succeeded && svg == PICTURE);
    let (svg, succeeded) = run(b"0 join 0\n0 jump 0\n");
    assert!(!succeeded && svg == drawn("0 join 0\n"));
}

fn run(trace: &[u8]) -> (String, bool) {
    let mut child = Command::new(env!("CARGO_BIN_EXE_draw"))
        .stdin(Stdio::piped())
        .stdout(Stdio::piped())
        .stderr(Stdio::null())
        .spawn()
        .unwrap();
    child.stdin.take().unwrap().write_all(trace).unwrap();
    let output = child.wait_with_output().unwrap();
    let svg = String::from_utf8(output.stdout).unwrap();
    (svg, output.status.success())
}

#[test]
fn what_the_listing_says() {
    let words: Vec<String> = texts(PICTURE).into_iter().map(|text| text.words).collect();
    let said = |word: &str| words.iter().filter(|words| *words == word).count();
    for once in [
        "end 0",
        "end 1",
        "DATA 0,0",
        "DATA 0,1 lost",
        "DATA 0,2",
        "RQST 0,1",
        "REPL 0,1",
        "got 0,0 focus \u{2212}2",
        "got 0,2 focus \u{2212}2",
        "got 0,1 focus \u{2212}2",
        "0,1: round 1, due 392",
        "0,1: round 2, due 1112",
        "0,1: reply, due 560",
        "359 ticks",
        "160 ticks",
    ] {
        assert_eq!(said(once), 1, "{once}");
    }
    for clock in [0, 10, 12, 20, 30, 32, 391, 392, 400, 560, 570] {
        assert_eq!(said(&clock.to_string()), 1, "clock {clock}");
    }
    assert_eq!((said("joined"), said("send focus \u{2212}2")), (2, 3));
    // Two requests and a reply waited; the key has one bar of each more.
    let bars = |class: &str| PICTURE.matches(&format!("<rect class=\"{class}\"")).count();
    assert_eq!((bars("request"), bars("reply")), (3, 2));
}

#[test]
fn no_words_on_words() {
    for picture in [PICTURE, &drawn(FOUR)] {
        let texts = texts(picture);
        for (place, one) in texts.iter().enumerate() {
            for other in &texts[..place] {
                assert!(one.is_clear_of(other), "{} {}", one.words, other.words);
            }
        }
    }
}

#[test]
fn well_formed() {
    for picture in [PICTURE, &drawn(FOUR), &drawn("")] {
        check_xml(picture);
    }
}

#[test]
fn four_ends() {
    let picture = drawn(FOUR);
    for once in [
        ">Four &lt;ends&gt; &amp; more<",
        ">4,1..2: round 1, due 368<",
        ">2 bytes<",
        ">DATA 4,3<",
        ">got 4,0 focus 1<",
        ">send focus 2001 refused 6<",
        ">set<",
        ">open refused 12<",
        ">end 8, host 1<",
        ">end 7<",
        ">crash<",
        ">leave<",
    ] {
        assert_eq!(picture.matches(once).count(), 1, "{once}");
    }
    assert_eq!(picture, drawn(FOUR));
}

#[test]
fn empty() {
    let none = drawn("");
    assert!(none.contains(">no calls<"));
    assert_eq!(
        none,
        drawn("# nothing but a heading\n\nstart\nask output\n")
    );
}

#[test]
fn bad_lines() {
    let good = drawn("0 join 0\n");
    for (trace, line) in [
        ("0 join 0\n0 jump 1\n", 2),
        ("0 join 0\n0 joined 1", 2),
        ("0 join 0\n\n0 hear 1 0\n0 joined 2\n", 3),
    ] {
        assert_eq!(draw(trace.as_bytes()), (good.clone(), Some(line)));
    }
}

#[test]
fn extremes() {
    let trace = "\
0 join 281474976710655
0 joined 281474976710655
0 send 18446744073709551615 0
0 send 281474976710655 0
1 join 0
1 joined 0
1 hear 1 0
9 set waits 0 0 255 18446744073709551615 18446744073709551615
9 set clock 18446744073709551615
9 fire 0
9 set clock 0
9 fire 0
room 0
1 fire 1
draws 0 0 0
1 fire 1
";
    check_xml(&drawn(trace));
}

/// Words of a picture, with their four corners brought into a level box.
struct Text {
    words: String,
    left: f64,
    right: f64,
    top: f64,
    bottom: f64,
}

impl Text {
    fn is_clear_of(&self, other: &Text) -> bool {
        self.right <= other.left
            || other.right <= self.left
            || self.bottom <= other.top
            || other.bottom <= self.top
    }
}

fn texts(picture: &str) -> Vec<Text> {
    let elements = picture.split("<text ").skip(1);
    elements.map(|element| text(element).unwrap()).collect()
}

/// Letters are taken as 0.58 of their size wide, 9 high over the baseline and 2 below it.
fn text(element: &str) -> Option<Text> {
    let (head, rest) = element.split_once('>')?;
    let words = rest.split_once('<')?.0.to_string();
    let size = match attribute(head, "class")? {
        "small" | "ticks" => 11.0,
        "end" | "heading" => 14.0,
        _ => 12.0,
    };
    let width = words.chars().count() as f64 * 0.58 * size;
    let start = match attribute(head, "text-anchor") {
        None => 0.0,
        Some("middle") => -width / 2.0,
        Some(_) => -width,
    };
    let matrix: Vec<f64> = match attribute(head, "transform") {
        Some(matrix) => {
            let numbers = matrix.strip_prefix("matrix(")?.strip_suffix(')')?;
            numbers.split(' ').map(|n| n.parse().unwrap()).collect()
        }
        None => {
            let place = |name| attribute(head, name)?.parse::<f64>().ok();
            vec![1.0, 0.0, 0.0, 1.0, place("x")?, place("y")?]
        }
    };
    let corners = [(0.0, -9.0), (width, -9.0), (0.0, 2.0), (width, 2.0)];
    let x = corners.map(|(x, y)| matrix[0] * (x + start) + matrix[2] * y + matrix[4]);
    let y = corners.map(|(x, y)| matrix[1] * (x + start) + matrix[3] * y + matrix[5]);
    Some(Text {
        words,
        left: x.into_iter().fold(f64::MAX, f64::min),
        right: x.into_iter().fold(f64::MIN, f64::max),
        top: y.into_iter().fold(f64::MAX, f64::min),
        bottom: y.into_iter().fold(f64::MIN, f64::max),
    })
}

fn attribute<'a>(head: &'a str, name: &str) -> Option<&'a str> {
    let (_, rest) = head.split_once(&format!("{name}=\""))?;
    Some(rest.split_once('"')?.0)
}

/// Every element is closed in its turn, every attribute is quoted, nothing else uses the
/// signs of XML, and no number went wrong.
fn check_xml(picture: &str) {
    let mut open: Vec<&str> = Vec::new();
    let mut rest = picture;
    while let Some((between, after)) = rest.split_once('<') {
        check_words(between);
        let (tag, after) = after.split_once('>').unwrap();
        rest = after;
        if let Some(name) = tag.strip_prefix('/') {
            assert_eq!(open.pop(), Some(name));
            continue;
        }
        let (name, attributes) = tag.split_once(' ').unwrap_or((tag, ""));
        let is_closed = attributes.ends_with('/');
        let quoted: Vec<&str> = attributes.trim_end_matches('/').split('"').collect();
        assert!(quoted.len() % 2 == 1 && quoted[quoted.len() - 1].is_empty());
        let names = quoted.iter().step_by(2).filter(|name| !name.is_empty());
        names.for_each(|name| assert!(name.ends_with('=')));
        assert!(!attributes.contains("NaN") && !attributes.contains("inf"));
        if !is_closed {
            open.push(name.trim_end_matches('/'));
        }
    }
    assert_eq!((open.len(), rest), (0, "\n"));
}

/// Words between elements: an ampersand only where it begins one of the four names.
fn check_words(words: &str) {
    for after in words.split('&').skip(1) {
        let names = ["amp;", "lt;", "gt;", "quot;"];
        assert!(names.iter().any(|name| after.starts_with(name)));
    }
}
