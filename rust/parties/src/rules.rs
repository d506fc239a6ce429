//! Document 01, "The two parties' own rules": its six bullets in its order, one file for each, and "No other pulls occur."
//! Request #101 has a command end otherwise: the file on the finish.

mod bits;
mod end;
mod finish;
mod handover;
mod no_other_pulls;
mod ready_for_data;
mod ready_to_send;
mod start;

use crate::limits::Window;
use crate::timetable::Timetable;
use crate::{Kind, Pair};

/// Whether this is a pair for exactly this string: every rule of both parties for its kind, for every byte.
///
/// # Errors
///
/// The first rule that is broken, with its byte (counted from 0) and tick.
pub fn check_pair(pair: &Pair, string: &[u8]) -> Result<(), String> {
    let table = Timetable::new(pair, string)?;
    start::check(&table)?;
    for byte in 0..string.len() {
        ready_to_send::check(&table, byte)?;
        ready_for_data::check(&table, byte)?;
        bits::check(&table, byte)?;
        handover::check(&table, byte)?;
    }
    check_ending(&table)?;
    (0..=string.len()).try_for_each(|byte| no_other_pulls::check(&table, byte))
}

/// The rules on what comes after the last byte.
fn check_ending(table: &Timetable) -> Result<(), String> {
    match table.pair.kind {
        Kind::Plain => {
            // "and after the last": the sender releases CLK once more, and the receiver lets go.
            ready_to_send::check(table, table.string.len())?;
            end::check(table)
        }
        Kind::Command { finish } => finish::check(table, finish),
    }
}

/// Whether the change at `later` comes as many ticks after the one at `earlier` as the window says.
fn after(byte: usize, rule: &str, earlier: u32, later: u32, window: Window) -> Result<(), String> {
    let ticks = i64::from(later) - i64::from(earlier);
    if window.has(ticks) {
        return Ok(());
    }
    Err(format!(
        "byte {byte}, tick {later}: {rule}: it is {ticks} ticks after tick {earlier}, not {window}"
    ))
}

/// Whether something is so.
fn holds(so: bool, byte: usize, tick: u32, rule: &str) -> Result<(), String> {
    if so {
        return Ok(());
    }
    Err(format!("byte {byte}, tick {tick}: {rule}: it is not so"))
}
