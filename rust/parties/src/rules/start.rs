//! "The sender pulls CLK from tick 0. The receiver takes DATA at tick 0 to 256 and holds it."

use super::{after, holds};
use crate::limits::FIRST_TAKE;
use crate::timetable::Timetable;

/// That it holds DATA is that its first pull has no break; the next bullet says where that pull may end.
pub(super) fn check(table: &Timetable) -> Result<(), String> {
    let pulled = table.clock_hold(0).from;
    holds(pulled == 0, 0, pulled, "the sender pulls CLK from tick 0")?;
    let take = table.hold(0).from;
    after(
        0,
        "the receiver takes DATA at tick 0 to 256",
        0,
        take,
        FIRST_TAKE,
    )
}
