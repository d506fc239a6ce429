//! "The tick of the last letting go is in the recording, and from it on nobody pulls anything." Of a plain recording alone.

use super::{after, holds};
use crate::limits::SILENCE;
use crate::timetable::Timetable;

/// The receiver's last pull ends with the last letting go, so it is the sender's pulls that are looked for.
pub(super) fn check(table: &Timetable) -> Result<(), String> {
    let byte = table.string.len();
    let let_go = table.hold(byte).until;
    let pair = table.pair;
    let rule = "the tick of the last letting go is in the recording";
    after(byte, rule, let_go, pair.total, SILENCE)?;
    let quiet = !pair.clock.anywhere(let_go, pair.total);
    holds(quiet, byte, let_go, "from it on nobody pulls CLK")?;
    let quiet = table.sender_keeps_off(let_go, pair.total);
    holds(quiet, byte, let_go, "from it on nobody pulls DATA")
}
