//! Plays the script on standard input and prints the answers.

use std::io;

fn main() -> io::Result<()> {
    twin::house::play(io::stdin().lock(), io::stdout().lock())
}
