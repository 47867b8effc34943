//! Writes random runs as traces: `generate SEED STEPS` one, `generate FROM TO STEPS` those of all these seeds, one after the other. It ends
//! with status 1, and a message, where a run is outside the service.

use std::io::{self, Write};
use std::process::ExitCode;

fn main() -> ExitCode {
    let numbers: Option<Vec<u64>> = std::env::args()
        .skip(1)
        .map(|word| word.parse().ok())
        .collect();
    let (from, to, steps) = match numbers.as_deref() {
        Some(&[seed, steps]) => (seed, seed, steps),
        Some(&[from, to, steps]) => (from, to, steps),
        _ => {
            eprintln!("usage: generate SEED STEPS, or generate FROM TO STEPS");
            return ExitCode::from(2);
        }
    };
    match write(from, to, steps) {
        Ok(()) => ExitCode::SUCCESS,
        Err(why) => {
            eprintln!("generate: {why}");
            ExitCode::FAILURE
        }
    }
}

fn write(from: u64, to: u64, steps: u64) -> Result<(), String> {
    let mut out = io::stdout().lock();
    for seed in from..=to {
        let text = twin::random::trace(seed, steps)?;
        out.write_all(text.as_bytes()).map_err(|e| e.to_string())?;
    }
    Ok(())
}
