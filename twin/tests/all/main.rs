//! The twin's tests, by content.

mod announcing;
mod arbitrary;
mod book;
mod cases;
mod displays;
mod events;
mod express;
mod fetching;
mod house;
mod judge;
mod messages;
mod picture;
mod questions;
mod reasons;
mod runs;
mod soundness;
mod support;
mod traces;
mod windows;
