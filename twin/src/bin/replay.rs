//! Plays the trace on standard input: docs/TRACES.md. A word after the program's name
//! is the mode: `rows`, `words`, or `plain` as without one. `--table FILE ..` plays the
//! traces in these files, each from its own start, and prints how often each answer,
//! refusal and branch came in them; it ends with status 1 where one never did. Without
//! a file it plays standard input.

use std::fs;
use std::io::{self, BufWriter, Read, Write};
use std::process::ExitCode;

use twin::branches;
use twin::replay::{self, Mode};

fn main() -> io::Result<ExitCode> {
    let mut arguments = std::env::args().skip(1);
    let mode = match arguments.next().as_deref() {
        Some("--table") => return table(&arguments.collect::<Vec<String>>()),
        Some("rows") => Mode::Rows,
        Some("words") => Mode::Words,
        Some("plain") | None => Mode::Plain,
        Some(word) => {
            eprintln!("replay: no mode {word}");
            return Ok(ExitCode::from(2));
        }
    };
    let mut print = BufWriter::new(io::stdout().lock());
    replay::play(&standard_input()?, mode, &mut print)?;
    print.flush()?;
    Ok(ExitCode::SUCCESS)
}

fn standard_input() -> io::Result<Vec<u8>> {
    let mut trace = Vec::new();
    io::stdin().lock().read_to_end(&mut trace)?;
    Ok(trace)
}

fn table(files: &[String]) -> io::Result<ExitCode> {
    let traces = match files {
        [] => vec![standard_input()?],
        _ => files.iter().map(fs::read).collect::<io::Result<_>>()?,
    };
    branches::count();
    for trace in traces {
        replay::play(&trace, Mode::Rows, &mut io::sink())?;
    }
    let counts = branches::counts();
    let mut print = BufWriter::new(io::stdout().lock());
    for (words, count) in &counts {
        writeln!(print, "{count:8}  {words}")?;
    }
    print.flush()?;
    let mut status = ExitCode::SUCCESS;
    for (words, _) in counts.iter().filter(|(_, count)| *count == 0) {
        eprintln!("replay: never taken: {words}");
        status = ExitCode::FAILURE;
    }
    Ok(status)
}
