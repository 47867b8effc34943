//! The turns of requests in random networks, against the bound of document 02, P12: `turns RUNS`, 1,000 without the word. It ends with status 1
//! where a round was set later than the bound.

use std::process::ExitCode;

use twin::random::turns::{measured, RUNS};

fn main() -> ExitCode {
    let runs = std::env::args().nth(1).and_then(|word| word.parse().ok());
    let (tables, late) = measured(runs.unwrap_or(RUNS));
    print!("{tables}");
    match late {
        0 => ExitCode::SUCCESS,
        _ => ExitCode::FAILURE,
    }
}
