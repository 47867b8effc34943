//! How long a lost cue waits for its repair, with and without a kept pair (document 02, P8), on eight ends in a row of rooms.
//!
//! Room h has end h, the source is end 0, and two neighbours are 5 ms apart. Of two cues the first is lost between two rooms, so that it
//! reaches no room behind them; nothing else is lost. The ticks are counted in each of these rooms from the arrival of the second cue, by
//! which the loss is seen, to the repair. The words after the program's name: none for the table, `svg` for the picture.

use std::collections::BTreeMap;
use std::fmt::Write;

use twin::cue::Cue;
use twin::end::{Answer, End, Event, Params};
use twin::message::{DATA, REPL, RQST, XPRS};
use twin::{Draw, DRAWS, OUTPUT_LEN};

const ROOMS: usize = 8;

/// 5 ms on the way from one room to the next: "A tick is 250 microseconds."
const STEP: u64 = 20;

/// Ticks between two cues, and after a repair until the next loss: by then nothing waits.
const BETWEEN: u64 = 40;
const REST: u64 = 60_000;

/// Losses on one way after the first, and rows of rooms with other draws.
const LOSSES: u32 = 4;
const RUNS: u64 = 200;

/// What is measured: whether pairs are kept, and E.
const CASES: [(&str, Option<u16>); 5] = [
    ("without a pair", None),
    ("E 0", Some(0)),
    ("E 20", Some(20)),
    ("E 100", Some(100)),
    ("E 400", Some(400)),
];

/// A message on its way.
struct Flight {
    to: usize,
    bytes: Vec<u8>,
}

struct Row {
    ends: Vec<End>,
    now: u64,
    /// By arrival.
    flights: BTreeMap<u64, Vec<Flight>>,
    seed: u64,
    /// A DATA reaches no room from this one on.
    cut: usize,
    /// When each end saw the gap, and when the repair came.
    seen: [Option<u64>; ROOMS],
    repaired: [Option<u64>; ROOMS],
    /// RQST, kind 21 and REPL put out.
    put_out: [u32; 3],
}

impl Row {
    fn new(seed: u64, e: u16) -> Row {
        let params = Params {
            e,
            ..Params::STANDARD
        };
        let mut row = Row {
            ends: (0..ROOMS as u8)
                .map(|host| End::open(host, params).1)
                .collect(),
            now: 0,
            flights: BTreeMap::new(),
            seed,
            cut: ROOMS,
            seen: [None; ROOMS],
            repaired: [None; ROOMS],
            put_out: [0; 3],
        };
        for host in 0..ROOMS {
            row.call(host, &Event::Join);
            row.call(host, &Event::Joined);
        }
        // Two reports each: the second echoes what was heard of the others, by which they have their distances.
        for _ in 0..2 {
            for host in 0..ROOMS {
                row.call(host, &Event::Report);
            }
            row.runs_until(row.now + REST);
        }
        row
    }

    /// The draws of a call (splitmix64).
    fn draws(&mut self) -> [Draw; DRAWS] {
        std::array::from_fn(|_| {
            self.seed = self.seed.wrapping_add(0x9E37_79B9_7F4A_7C15);
            let x = (self.seed ^ (self.seed >> 30)).wrapping_mul(0xBF58_476D_1CE4_E5B9);
            let y = (x ^ (x >> 27)).wrapping_mul(0x94D0_49BB_1331_11EB);
            (y >> 40) as Draw
        })
    }

    /// An event on an end; what it puts out is on its way to all others.
    fn call(&mut self, host: usize, event: &Event) -> Answer {
        let mut out = [0; OUTPUT_LEN];
        let draws = self.draws();
        let answer = self.ends[host].event(event, self.now, &draws, &mut out);
        if let Answer::Out(length) = answer {
            let bytes = &out[..length];
            if let Some(kind) = [RQST, XPRS, REPL].iter().position(|&kind| kind == bytes[0]) {
                self.put_out[kind] += 1;
            }
            let lost = |to: usize| bytes[0] == DATA && to >= self.cut;
            for to in (0..ROOMS).filter(|&to| to != host && !lost(to)) {
                let arrives = self.now + STEP * host.abs_diff(to) as u64;
                let bytes = bytes.to_vec();
                let flights = self.flights.entry(arrives).or_default();
                flights.push(Flight { to, bytes });
            }
        }
        answer
    }

    /// Plays what arrives and what is due up to a tick.
    fn runs_until(&mut self, end: u64) {
        loop {
            let arrival = self.flights.keys().next().copied();
            let dues = self.ends.iter().filter_map(End::first_due).min();
            let next = arrival.into_iter().chain(dues).min();
            let Some(tick) = next.filter(|&tick| tick <= end) else {
                break;
            };
            self.now = tick.max(self.now);
            for flight in self.flights.remove(&tick).unwrap_or_default() {
                self.hears(flight);
            }
            for host in 0..ROOMS {
                while self.ends[host].first_due().is_some_and(|due| due <= tick) {
                    self.call(host, &Event::Fire);
                }
            }
        }
        self.now = end;
    }

    fn hears(&mut self, flight: Flight) {
        let Flight { to, bytes } = flight;
        let kind = bytes[0];
        let got = matches!(self.call(to, &Event::Arrival(bytes)), Answer::Got { .. });
        match kind {
            DATA if got && self.ends[to].first_due().is_some() => self.seen[to] = Some(self.now),
            REPL if got => self.repaired[to] = Some(self.now),
            _ => {}
        }
    }

    /// One cue is lost behind the rooms below `cut`, the next one is heard by all; the ticks until the repair, of each room that lost it.
    fn loss(&mut self, cut: usize) -> Vec<u64> {
        (self.seen, self.repaired, self.put_out) = ([None; ROOMS], [None; ROOMS], [0; 3]);
        let send = Event::Send(Cue::ZERO);
        self.cut = cut;
        self.call(0, &send);
        self.runs_until(self.now + BETWEEN);
        self.cut = ROOMS;
        self.call(0, &send);
        self.runs_until(self.now + REST);
        let ticks = |host: usize| self.repaired[host]?.checked_sub(self.seen[host]?);
        let ticks: Vec<u64> = (cut..ROOMS).filter_map(ticks).collect();
        assert_eq!(ticks.len(), ROOMS - cut, "every room has its repair");
        ticks
    }
}

/// What was measured of one case: the ticks, and how many messages of each kind a loss had on average.
struct Measured {
    mean: f64,
    worst: u64,
    messages: [f64; 3],
}

/// Losses on one way, after a first one that all cases have alike. Where no pair is to be kept it is taken away before each loss.
fn measure(cut: usize, e: Option<u16>) -> Measured {
    let mut ticks = Vec::new();
    let mut messages = [0.0; 3];
    for seed in 0..RUNS {
        let mut row = Row::new(seed, e.unwrap_or(0));
        row.call(0, &Event::Send(Cue::ZERO));
        row.runs_until(row.now + REST);
        row.loss(cut);
        for _ in 0..LOSSES {
            if e.is_none() {
                row.ends
                    .iter_mut()
                    .for_each(|end| end.sources[0].pair = None);
            }
            ticks.extend(row.loss(cut));
            for (sum, count) in messages.iter_mut().zip(row.put_out) {
                *sum += f64::from(count);
            }
        }
    }
    Measured {
        mean: ticks.iter().sum::<u64>() as f64 / ticks.len() as f64,
        worst: ticks.iter().copied().max().unwrap_or(0),
        messages: messages.map(|sum| sum / (RUNS as f64 * f64::from(LOSSES))),
    }
}

fn table() {
    println!("| lost before room | | mean ticks | most | RQST | kind 21 | REPL |");
    println!("|---|---|---|---|---|---|---|");
    for cut in [1, 2, 4, 7] {
        for (words, e) in CASES {
            let Measured {
                mean,
                worst,
                messages: [rqst, xprs, repl],
            } = measure(cut, e);
            println!(
                "| {cut} | {words} | {mean:.0} | {worst} | {rqst:.2} | {xprs:.2} | {repl:.2} |"
            );
        }
    }
}

const COLOURS: [&str; 5] = ["#777", "#1b7f4b", "#1f5fa8", "#6b5b95", "#c2570c"];

/// The mean ticks as bars, for each way of loss.
fn picture() -> String {
    let (width, left, floor, bar) = (900, 60.0, 300.0, 20.0);
    let mut svg = format!(
        "<svg xmlns=\"http://www.w3.org/2000/svg\" width=\"{width}\" height=\"360\" viewBox=\"0 0 {width} 360\" role=\"img\">\n\
         <title>Mean ticks from a seen loss to its repair</title>\n\
         <style>text {{ font: 12px Helvetica, Arial, 'DejaVu Sans', sans-serif; fill: #333; }} .guide {{ stroke: #ececec; }}</style>\n\
         <rect width=\"{width}\" height=\"360\" fill=\"#fff\"/>\n"
    );
    let all: Vec<Vec<f64>> = (1..ROOMS)
        .map(|cut| CASES.map(|(_, e)| measure(cut, e).mean).to_vec())
        .collect();
    let most = all.iter().flatten().copied().fold(0.0, f64::max);
    let high = |ticks: f64| ticks / most * 240.0;
    for ticks in (0..)
        .map(|n| 100.0 * f64::from(n))
        .take_while(|&t| t <= most)
    {
        let y = floor - high(ticks);
        let _ = writeln!(
            svg,
            "<line class=\"guide\" x1=\"{left}\" x2=\"880\" y1=\"{y:.1}\" y2=\"{y:.1}\"/><text x=\"52\" y=\"{:.1}\" text-anchor=\"end\">{ticks}</text>",
            y + 4.0
        );
    }
    for (place, means) in all.iter().enumerate() {
        let x = left + 10.0 + 116.0 * place as f64;
        for (case, &mean) in means.iter().enumerate() {
            let (x, tall) = (x + bar * case as f64, high(mean));
            let (y, colour) = (floor - tall, COLOURS[case]);
            let _ = writeln!(
                svg,
                "<rect x=\"{x:.1}\" y=\"{y:.1}\" width=\"17\" height=\"{tall:.1}\" fill=\"{colour}\"/>"
            );
        }
        let _ = writeln!(
            svg,
            "<text x=\"{x:.1}\" y=\"318\">before room {}</text>",
            place + 1
        );
    }
    legend(&mut svg);
    svg + "</svg>\n"
}

fn legend(svg: &mut String) {
    for (case, (words, _)) in CASES.iter().enumerate() {
        let x = 70 + 140 * case;
        let _ = writeln!(
            svg,
            "<rect x=\"{x}\" y=\"335\" width=\"12\" height=\"12\" fill=\"{}\"/><text x=\"{}\" y=\"346\">{words}</text>",
            COLOURS[case],
            x + 18
        );
    }
}

fn main() {
    match std::env::args().nth(1).as_deref() {
        Some("svg") => print!("{}", picture()),
        _ => table(),
    }
}
