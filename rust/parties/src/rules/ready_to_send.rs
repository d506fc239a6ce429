//! "The sender releases CLK 1 or more ticks after that take; for later bytes, and after the last, 100 or more after the
//! latest take. The receiver lets go 1 or more ticks later."

use super::after;
use crate::limits::{FIRST_HOLD, LATER_HOLD, READY_TO_SEND};
use crate::timetable::Timetable;

/// For a byte, or for the end, which is the byte beyond the last.
pub(super) fn check(table: &Timetable, byte: usize) -> Result<(), String> {
    let take = table.hold(byte).from;
    let release = table.clock_release(byte);
    if byte == 0 {
        let rule = "the sender releases CLK 1 or more ticks after that take";
        after(byte, rule, take, release, FIRST_HOLD)?;
    } else {
        let rule = "the sender releases CLK 100 or more after the latest take";
        after(byte, rule, take, release, LATER_HOLD)?;
    }
    let rule = "the receiver lets go 1 or more ticks later";
    after(byte, rule, release, table.hold(byte).until, READY_TO_SEND)
}
