//! The sender's and the receiver's own rules, written from the user's papers alone: document 01, "The two parties' own
//! rules", and what the requests #101 and #103 of document 02 say of a command's and of marked steps.
//!
//! Nothing here judges: there is no phase and no state. A *pair* is three tracks of pulls, and each rule is a statement
//! about where a pull begins or ends. Whether a pair is of a plain recording or of a command is a value, its [`Kind`]: the
//! rules that both keep stand once. Two uses:
//!
//! - [`check_shown_pair`] and [`check_shown_command`] read the pair that a recording and a ledger show, and hold it to
//!   every rule, and the recording to having no step marked. It is what a recording judged complete must pass.
//! - [`Transfer`] is a pair as its spans, and [`draw::transfer`] and [`draw::command`] choose the spans at random within
//!   each rule. It is what a judge must find complete. What is laid out is unmarked; [`Step::marked`] marks a step.
//!
//! For the second it has [`Random`], [`Step`] and [`file_of`]. The crates beside it use these: there is no other maker of
//! recordings and no other generator.

#![forbid(unsafe_code)]
#![deny(missing_docs)]

mod card;
mod check;
pub mod draw;
mod ending;
mod kind;
mod lay_out;
pub mod limits;
mod lines;
mod pair;
mod random;
mod rules;
mod shown;
mod steps;
mod timetable;
mod track;
mod transfer;

pub use card::Card;
pub use check::{check_given, check_shown_command, check_shown_pair, check_unmarked};
pub use ending::{Ending, Stretch};
pub use kind::Kind;
pub use lines::Lines;
pub use pair::Pair;
pub use random::Random;
pub use rules::check_pair;
pub use shown::{shown_command, shown_pair};
pub use steps::{file_of, steps_of, ticks_of, Step, LONGEST, MARKED, MOST_STEPS};
pub use track::{Pull, Track};
pub use transfer::{Bit, Byte, Transfer};
