//! The baseline: a judge of recorded data transfers that reads one tick after another, as document 01 tells it: a state
//! machine over the phases A to G, the bits, the handover and the end. Its cost goes with the ticks of a recording.
//!
//! It is frozen at document 01's rules and is never extended: a later rule has no place here. It has no tests of its own,
//! for the benchmark compares its answers, and the memory that it leaves, before anything is measured.
//!
//! The layout and its refusals are `by_steps`'s; the reading is its own.

mod judge;
mod limits;
mod phases;
mod state;
mod verdict;

pub use judge::judge;
