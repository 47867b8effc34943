//! Plays a script on two ends and a display: docs/DISPLAYS.md. `foyer < script.txt`

use std::io;

fn main() -> io::Result<()> {
    let print = io::BufWriter::new(io::stdout().lock());
    twin::foyer::play(io::stdin().lock(), print)
}
