//! The station's judge and writer, proved in Rattle, for programs in Rust.
//!
//! A recording of the bus lines goes in as bytes. If its stream was finished, a sender and a receiver that keep the rules
//! could have made it and the recorder lost none of its ticks, a [`Transfer`] comes out; anything else is a [`JudgeError`].
//! **`Ok` is the only pass**, the station's number 20. An empty stream is a time-out, a cut recording or one with lost ticks
//! proves nothing, a refusal says that the file was not judged at all: each is an error, also where bytes were handed over
//! before. What the numbers mean, and the exact rules, stand in `docs/RULES.md` of the repository.
//!
//! ```
//! # #[cfg(feature = "std")] {
//! use station::{write_to_vec, Judge};
//!
//! let mut judge = Judge::new();
//! let recording = write_to_vec(b"HELLO").expect("a string this short can be written");
//! match judge.judge(&recording) {
//!     Ok(transfer) => {
//!         println!("pass: {}", String::from_utf8_lossy(transfer.bytes()));
//!         assert_eq!(transfer.bytes(), b"HELLO");
//!     }
//!     Err(error) => {
//!         eprintln!("fail: {error}");
//!         std::process::exit(1);
//!     }
//! }
//!
//! // The recording of no bytes ends with a time-out. Nothing was wrong with it, and still it is not a pass.
//! let silence = write_to_vec(b"").expect("no bytes can be written");
//! let error = judge.judge(&silence).unwrap_err();
//! assert_eq!((error.number(), error.name()), (21, "empty-stream"));
//! # }
//! ```
//!
//! What is sent while ATN is pulled, to tell who is to listen or to talk, is a command transfer, and has an entry of its own,
//! [`judge_command()`], with a pass of its own, [`CommandTransfer`]; [`CommandClass`] says what each of its bytes means.
//!
//! `Judge` and `write_to_vec` own their memory and stand behind the feature `std`, which is on if nothing else is said.
//! Without it the crate needs `core` alone: [`judge()`], [`judge_command()`] and [`write()`] are lent what they fill, and take no
//! memory.
//!
//! # What is proved, and what is not
//!
//! The library behind this crate is proved before it is linked: the build runs `rt lib` in its folder and fails if the
//! proof does. What is not proved is the crossing: that the four functions are declared here as they were built. It is
//! one small module, the only one with `unsafe` code, and it is tried on a million recordings against another judge
//! (`cargo run --release -p trials --bin differential`).

#![no_std]
#![deny(missing_docs)]
#![deny(unsafe_code)]

#[cfg(any(feature = "std", test))]
extern crate std;

mod border;
mod command_class;
mod command_transfer;
mod handovers;
mod judge;
mod judge_error;
mod number;
mod numbers;
#[cfg(feature = "std")]
mod owned;
mod room;
mod stop;
mod transfer;
mod unknown_number;
mod write;

pub use command_class::CommandClass;
pub use command_transfer::CommandTransfer;
pub use handovers::{Handover, Handovers};
pub use judge::{judge, judge_command};
pub use judge_error::JudgeError;
pub use numbers::{Fault, Refusal, TrayRefusal, WriteRefusal, COMPLETE, WRITTEN};
#[cfg(feature = "std")]
pub use owned::{write_to_vec, Judge};
pub use room::{written_length, BYTE_ROOM, LEDGER_ROOM, LONGEST_RECORDING, MOST_BYTES};
pub use transfer::Transfer;
pub use unknown_number::UnknownNumber;
pub use write::{write, Written};

/// The version of this crate, which is that of the whole repository.
pub const VERSION: &str = env!("CARGO_PKG_VERSION");
