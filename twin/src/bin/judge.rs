//! Judges the record on standard input as the program `judge` does (document 02, P13). `judge --random SEED` prints a random record, and
//! `judge --against PROGRAM FROM TO` has another judge judge the records of these seeds and compares: it stops at the first difference, with the
//! record in a file, and says at the end how often each verdict came.

use std::collections::BTreeMap;
use std::io::{self, Read, Write};
use std::process::{Command, ExitCode, Stdio};

use twin::judge::{judge, random_record, random_records, Verdict};

fn main() -> io::Result<ExitCode> {
    let args: Vec<String> = std::env::args().skip(1).collect();
    match args.iter().map(String::as_str).collect::<Vec<_>>()[..] {
        [] => {
            let mut record = Vec::new();
            io::stdin().lock().read_to_end(&mut record)?;
            println!("{}", judge(&record));
        }
        ["--random", seed] => io::stdout().write_all(&random_record(number(seed)))?,
        ["--against", program, from, to] => return against(program, number(from), number(to)),
        _ => {
            eprintln!("usage: judge, judge --random SEED, or judge --against PROGRAM FROM TO");
            return Ok(ExitCode::from(2));
        }
    }
    Ok(ExitCode::SUCCESS)
}

fn number(word: &str) -> u64 {
    word.parse().expect("a number")
}

fn against(program: &str, from: u64, to: u64) -> io::Result<ExitCode> {
    let mut counts: BTreeMap<&str, u64> = BTreeMap::new();
    for (seed, record) in random_records(from, to) {
        let ours = judge(&record);
        let theirs = judged_by(program, &record)?;
        if theirs != format!("{ours}\n") {
            println!("seed {seed}: the twin says {ours}, {program} says {theirs}");
            return Ok(ExitCode::FAILURE);
        }
        *counts.entry(sort(&ours)).or_default() += 1;
    }
    println!("{} records, none judged differently", to + 1 - from);
    for (verdict, count) in counts {
        println!("  {verdict}: {count}");
    }
    Ok(ExitCode::SUCCESS)
}

fn sort(verdict: &Verdict) -> &'static str {
    match verdict {
        Verdict::Allowed => "allowed",
        Verdict::Broken(_) => "a line",
        Verdict::Refused(16) => "refused 16",
        Verdict::Refused(_) => "refused 17",
    }
}

/// What the other program prints. A record above 1,024 lines may be left unread, so that a write to it may fail.
fn judged_by(program: &str, record: &[u8]) -> io::Result<String> {
    let mut child = Command::new(program).stdin(Stdio::piped()).stdout(Stdio::piped()).spawn()?;
    if let Some(mut stdin) = child.stdin.take() {
        match stdin.write_all(record) {
            Err(fault) if fault.kind() != io::ErrorKind::BrokenPipe => return Err(fault),
            _ => {}
        }
    }
    let output = child.wait_with_output()?;
    Ok(String::from_utf8_lossy(&output.stdout).into_owned())
}
