//! "No other pulls occur."
//!
//! The sender's CLK pulls and the receiver's DATA pulls are counted, and each has its place in a bullet. The sender's DATA
//! pulls are free in number, so it is their place that is looked at: from the CLK pull that begins a byte's bits until that
//! byte's letting go, and nowhere else. After a command's finish none of this is looked at.

use super::holds;
use crate::timetable::Timetable;

/// Before a byte's bits, or, for the byte beyond the last, to the end: the sender keeps off DATA since its latest letting go.
pub(super) fn check(table: &Timetable, byte: usize) -> Result<(), String> {
    let from = match byte {
        0 => 0,
        _ => table.let_go(byte - 1).unwrap_or(table.handover(byte - 1)),
    };
    let until = if byte > table.last() {
        table.pair.total
    } else {
        table.bits_begin(byte)
    };
    let rule = "no other pulls occur: the sender keeps off DATA outside its bits and handovers";
    holds(table.sender_keeps_off(from, until), byte, from, rule)
}
