//! By when a lost cue is there: the figures of docs/RECOVERY.md.
//!
//!     recovery table                    the bounds in seconds, with the house's parameters
//!     recovery plot                     the same as a picture (SVG)
//!     recovery runs FROM COUNT          the claims against the random networks of so many seeds, from one on
//!     recovery needed FROM COUNT        each supposition left out in turn
//!     recovery suppositions             their names and words
//!     recovery show SEED NUMBER         the calls of one network about a number
//!
//! After `runs` may stand `--svg FILE`, into which a picture of the table goes; after `runs` and `show` may stand `--without NAME`: the
//! supposition of that name, by the table of `suppositions`, is broken in most runs and not asked for. `runs` ends with status 1 where an instance
//! is beyond its bound, `needed` where a supposition was left out and none is.

use std::process::ExitCode;

use twin::recovery::judge::judged;
use twin::recovery::run::played;
use twin::recovery::suppose::{Supposition, Without};
use twin::recovery::tally::{needed, suppositions, Tally};
use twin::recovery::{house, picture};

/// The words of the command line: numbers and flags.
struct Words(Vec<String>);

impl Words {
    /// The word after a flag; both are taken away.
    fn flag(&mut self, name: &str) -> Option<String> {
        let at = self.0.iter().position(|word| word == name)?;
        let mut taken = self.0.drain(at..self.0.len().min(at + 2));
        taken.nth(1)
    }

    fn number(&self, place: usize, otherwise: u64) -> u64 {
        let word = self.0.get(place).and_then(|word| word.parse().ok());
        word.unwrap_or(otherwise)
    }
}

fn main() -> ExitCode {
    let mut words = Words(std::env::args().skip(1).collect());
    let svg = words.flag("--svg");
    let without = words.flag("--without");
    let left_out = without.as_deref().map(Supposition::named);
    if left_out == Some(None) {
        eprintln!("recovery: no supposition of that name");
        return ExitCode::from(2);
    }
    let without = left_out.flatten();
    match words.0.first().map(String::as_str) {
        Some("table") => print!("{}", house::table()),
        Some("plot") => print!("{}", house::plot()),
        Some("runs") => return runs(&words, svg, without),
        Some("needed") => {
            let (table, all) = needed(words.number(1, 1), words.number(2, 300));
            print!("{table}");
            return status(all);
        }
        Some("suppositions") => print!("{}", suppositions()),
        Some("show") => show(&words, without),
        _ => {
            eprintln!("recovery table | plot | runs FROM COUNT | needed FROM COUNT | suppositions | show SEED NUMBER");
            return ExitCode::from(2);
        }
    }
    ExitCode::SUCCESS
}

fn status(well: bool) -> ExitCode {
    match well {
        true => ExitCode::SUCCESS,
        false => ExitCode::FAILURE,
    }
}

fn runs(words: &Words, svg: Option<String>, without: Option<Supposition>) -> ExitCode {
    let tally = Tally::of(words.number(1, 1), words.number(2, 300), without);
    print!("{}", tally.table());
    for (seed, verdict) in &tally.beyond {
        println!("seed {seed}: {verdict:?}");
    }
    if let Some(file) = svg {
        if let Err(fault) = std::fs::write(&file, picture::picture(&tally)) {
            eprintln!("recovery: {file}: {fault}");
            return ExitCode::from(2);
        }
    }
    status(tally.missed() == 0)
}

fn show(words: &Words, without: Option<Supposition>) {
    let log = played(words.number(1, 1), without);
    let (way, late, period) = (log.way, log.late, log.period);
    println!(
        "source {}, way {way}, late {late}, period {period}",
        log.source
    );
    for end in &log.ends {
        println!("{} {:?}", end.host, end.params);
    }
    print!("{}", log.lines(words.number(2, 1) as u16));
    for verdict in judged(&log, Without(without)) {
        println!("{verdict:?}");
    }
}
