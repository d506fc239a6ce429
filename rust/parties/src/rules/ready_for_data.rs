//! "Not the last byte: the sender pulls CLK 1 to 199 ticks after the letting go. Last byte: the receiver pulls DATA 200 to
//! 290 ticks after, for 60 to 150 ticks; the sender pulls CLK 1 to 60 ticks after that."
//!
//! A command is "minus the end mark (the CLK pull before the last byte's bits keeps the 1 to 199)".

use super::after;
use crate::limits::{ACKNOWLEDGEMENT, AFTER_ACKNOWLEDGEMENT, END_MARK, READY_FOR_DATA};
use crate::timetable::Timetable;

/// For a byte.
pub(super) fn check(table: &Timetable, byte: usize) -> Result<(), String> {
    let let_go = table.hold(byte).until;
    let clock = table.bits_begin(byte);
    let Some(pull) = table.acknowledgement(byte) else {
        let rule = if byte < table.last() {
            "not the last byte: the sender pulls CLK 1 to 199 ticks after the letting go"
        } else {
            "a command's last byte: the sender pulls CLK 1 to 199 ticks after the letting go"
        };
        return after(byte, rule, let_go, clock, READY_FOR_DATA);
    };
    let rule = "last byte: the receiver pulls DATA 200 to 290 ticks after";
    after(byte, rule, let_go, pull.from, END_MARK)?;
    let rule = "last byte: for 60 to 150 ticks";
    after(byte, rule, pull.from, pull.until, ACKNOWLEDGEMENT)?;
    let rule = "last byte: the sender pulls CLK 1 to 60 ticks after that";
    after(byte, rule, pull.until, clock, AFTER_ACKNOWLEDGEMENT)
}
