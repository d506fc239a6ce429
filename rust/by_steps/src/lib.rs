//! A judge and a writer of recorded data transfers, after document 01, the user's paper.
//! A second entry judges command recordings, after request #101 of document 02.
//! Both heed the recorder's marks of lost ticks, after request #103.
//!
//! The judge goes by steps and durations: what it does is bounded by the number
//! of steps, however many ticks they last. It rests on one fact about "The
//! judge's phases": while the lines stay as they are, a phase can be left at
//! most once, at the first of these ticks, and from then on only a limit of the
//! phase entered can decide. So each step costs one look at its lines and one
//! comparison of its end with a limit.

#![forbid(unsafe_code)]

mod answer;
mod bits;
mod command_class;
mod entry;
mod finish;
mod handover;
mod judge;
mod limits;
mod numbers;
mod phases;
mod reader;
pub mod recording;
mod step;
#[cfg(test)]
mod tests;
mod writer;

pub use answer::Answer;
pub use command_class::{command_class, CommandClass};
pub use judge::{judge, judge_command};
pub use writer::write;
