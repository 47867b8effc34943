//! Writes random scripts of the program `foyer`: `screens SEED STEPS` one, `screens FROM TO STEPS` those of all these seeds as one script. With
//! `--table` before the numbers it writes how often each branch came in it instead, and ends with status 1, and names it, where one never came.
//! It ends with status 1, and a message, where a number is handed out or lost twice, or is neither handed out nor missing nor lost.

use std::io::{self, Write};
use std::process::ExitCode;

use twin::random::displays::scripts;

fn main() -> ExitCode {
    let mut words: Vec<String> = std::env::args().skip(1).collect();
    let table = words.first().is_some_and(|word| word == "--table");
    if table {
        words.remove(0);
    }
    let numbers: Option<Vec<u64>> = words.iter().map(|word| word.parse().ok()).collect();
    let (from, to, steps) = match numbers.as_deref() {
        Some(&[seed, steps]) => (seed, seed, steps),
        Some(&[from, to, steps]) => (from, to, steps),
        _ => {
            eprintln!("usage: screens [--table] SEED STEPS, or screens [--table] FROM TO STEPS");
            return ExitCode::from(2);
        }
    };
    match write(from, to, steps, table) {
        Ok(()) => ExitCode::SUCCESS,
        Err(why) => {
            eprintln!("screens: {why}");
            ExitCode::FAILURE
        }
    }
}

fn write(from: u64, to: u64, steps: u64, table: bool) -> Result<(), String> {
    let scripts = scripts(from, to, steps)?;
    let seen = &scripts.seen;
    let text = if table {
        seen.to_string()
    } else {
        scripts.text
    };
    let mut out = io::stdout().lock();
    out.write_all(text.as_bytes()).map_err(|e| e.to_string())?;
    let never: Vec<&str> = seen.never().collect();
    if table && !never.is_empty() {
        return Err(format!("never came: {}", never.join("; ")));
    }
    Ok(())
}
