//! `differential [COUNT] [SEED]`, the trial of the border: the station's proved judge and writer, called as a program of the
//! station calls them, against `by_steps`, another judge and writer made from the user's papers alone, and against the
//! parties' own rules.
//!
//! A *case* is one recording to judge, by one of the judge's entries, or one string to write, drawn by a *class* from a seed of
//! its own.

#![forbid(unsafe_code)]

mod arguments;
mod case;
mod classes;
mod edit;
mod entry;
mod fell;
mod judge_memory;
mod judge_trial;
mod lent;
mod mark;
mod outcome;
mod place;
mod report;
mod run;
mod tally;
mod write_trial;

use crate::arguments::{Arguments, USAGE};
use std::process::ExitCode;

fn main() -> ExitCode {
    let words: Vec<String> = std::env::args().skip(1).collect();
    let success = match Arguments::read(&words) {
        Some(Arguments::Run { count, seed }) => run::run(count, seed),
        Some(Arguments::One { seed, class }) => run::run_one(seed, class),
        None => {
            eprintln!("{USAGE}");
            return ExitCode::from(2);
        }
    };
    ExitCode::from(u8::from(!success))
}
