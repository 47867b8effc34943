//! Draws the trace on standard input as an SVG file on standard output.

use std::io::{self, Read, Write};
use std::process::ExitCode;

fn main() -> io::Result<ExitCode> {
    let mut trace = Vec::new();
    io::stdin().read_to_end(&mut trace)?;
    let (picture, bad) = twin::picture::draw(&trace);
    io::stdout().write_all(picture.as_bytes())?;
    Ok(match bad {
        None => ExitCode::SUCCESS,
        Some(line) => {
            eprintln!("line {line} is bad; the picture ends before it");
            ExitCode::FAILURE
        }
    })
}
