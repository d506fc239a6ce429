//! "The sender sends eight bits with the set-up, valid and steadiness rules above; the receiver keeps off DATA."
//!
//! The rules above are those of "Bits": "eight, least significant first, pulled is one. *Set-up*: CLK pulled for 1 to 200
//! ticks (H), DATA free; a 201st is 34. *Valid*: CLK released. Its first tick must show the DATA of the last set-up tick,
//! otherwise 33. DATA changing while valid: 33. A 201st valid tick (H): 34. CLK pulled after fewer than 20 valid ticks
//! (003): 32."

use super::{after, holds};
use crate::limits::{SET_UP, VALID};
use crate::timetable::Timetable;

/// For a byte.
pub(super) fn check(table: &Timetable, byte: usize) -> Result<(), String> {
    for bit in 0..8 {
        let set_up = table.set_up(byte, bit);
        let rule = "set-up: CLK pulled for 1 to 200 ticks";
        after(byte, rule, set_up.from, set_up.until, SET_UP)?;
        let valid = table.valid(byte, bit);
        let rule = "valid: CLK released for 20 to 200 ticks";
        after(byte, rule, valid.from, valid.until, VALID)?;
        steady(table, byte, bit)?;
    }
    let (from, until) = (table.bits_begin(byte), table.handover(byte));
    let off = !table.pair.receiver_data.anywhere(from, until);
    holds(off, byte, from, "the receiver keeps off DATA")
}

/// The sender shows the string's bit at the last set-up tick and at every valid tick.
fn steady(table: &Timetable, byte: usize, bit: usize) -> Result<(), String> {
    let valid = table.valid(byte, bit);
    let (from, until) = (valid.from - 1, valid.until);
    let data = &table.pair.sender_data;
    if table.bit(byte, bit) {
        let rule = "a one: DATA pulled from the last set-up tick to the last valid tick";
        holds(data.throughout(from, until), byte, from, rule)
    } else {
        let rule = "a zero: DATA not pulled from the last set-up tick to the last valid tick";
        holds(!data.anywhere(from, until), byte, from, rule)
    }
}
