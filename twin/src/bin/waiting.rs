//! A table of docs/RECOVERY.md, or with the word `svg` its picture: how long a request may wait for its next round.

fn main() {
    match std::env::args().nth(1).as_deref() {
        Some("svg") => print!("{}", twin::waiting::picture()),
        _ => print!("{}", twin::waiting::table()),
    }
}
