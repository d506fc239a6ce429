//! "the finish is in the recording and comes 100 or more ticks after the latest take, both still hold their lines in that
//! tick, and what CLK and DATA show after it binds nobody" (request #101). Of a command alone, in place of document 01's
//! "release, letting go and silence after the last byte".
//!
//! What ATN does is no rule of a party: the pair gives the recording only if ATN is right.

use super::{after, holds};
use crate::limits::LATER_HOLD;
use crate::timetable::Timetable;

/// The last hold of either begins no later than the finish, for later pulls are not counted.
pub(super) fn check(table: &Timetable, finish: u32) -> Result<(), String> {
    let byte = table.string.len();
    let inside = finish < table.pair.total;
    holds(inside, byte, finish, "the finish is in the recording")?;
    let rule = "the finish comes 100 or more ticks after the latest take";
    after(byte, rule, table.take(table.last()), finish, LATER_HOLD)?;
    let held = finish < table.clock_hold(byte).until;
    let rule = "the sender still holds CLK in the finish tick";
    holds(held, byte, finish, rule)?;
    let held = finish < table.hold(byte).until;
    let rule = "the receiver still holds DATA in the finish tick";
    holds(held, byte, finish, rule)
}
