//! Plays the lines on standard input as the program `windows` does, or prints random ones: `windows --random SEED LISTS`.

use std::io;

fn main() -> io::Result<()> {
    let args: Vec<String> = std::env::args().skip(1).collect();
    match args.iter().map(String::as_str).collect::<Vec<_>>()[..] {
        ["--random", seed, lists] => {
            print!("{}", twin::windows::random_lines(seed.parse().expect("a seed"), lists.parse().expect("a number of lists")));
            Ok(())
        }
        _ => twin::windows::play(io::stdin().lock(), io::stdout().lock()),
    }
}
