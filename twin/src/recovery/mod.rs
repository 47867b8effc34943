//! By when a lost cue is there: the bounds of timely recovery, by their words, held against random networks of ends.
//!
//! An asker h lacks a number of a source s, a holder g has it. What is supposed is said of the two alone: their calls, what they hear, when
//! they fire. `bounds` has the bounds, `plan` draws a network, `run` plays it and keeps what can be seen of every call, `suppose` looks in
//! a finished run for what is supposed, `judge` and `detect` for the claims, `tally` counts; `house` has the figures of docs/RECOVERY.md
//! that need no run.

pub mod bounds;
mod detect;
pub mod house;
pub mod judge;
pub mod log;
pub mod member;
pub mod messages;
pub mod picture;
mod plan;
pub mod run;
mod spoil;
pub mod suppose;
pub mod tally;

/// A time that all ends share, in ticks: an end's clock is that time and a number of its own.
pub type Time = i64;
