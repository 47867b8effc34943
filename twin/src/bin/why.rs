//! Plays a script of house on standard input and prints house's lines, with the reason's words after each `ignored`.

use std::io;

fn main() -> io::Result<()> {
    twin::house::explain(io::stdin().lock(), io::stdout().lock())
}
