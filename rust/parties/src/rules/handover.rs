//! "After bit 8 the sender pulls CLK. If that bit was one it may go on pulling DATA without a break and stops at offset 0
//! to 100; if zero it doesn't pull. The receiver takes DATA at offset 1 to 1,000 and holds it."

use super::{after, holds};
use crate::limits::{KEEP, TAKE};
use crate::timetable::Timetable;

/// For a byte. That the receiver holds DATA is that its pull has no break; the bullet on the release of CLK says where
/// that pull may end.
pub(super) fn check(table: &Timetable, byte: usize) -> Result<(), String> {
    let offset_0 = table.handover(byte);
    let Some(let_go) = table.let_go(byte) else {
        let rule = "bit 8 is one, and DATA is pulled to its end";
        return holds(false, byte, offset_0, rule);
    };
    let rule = "the sender goes on pulling DATA and stops at offset 0 to 100";
    after(byte, rule, offset_0, let_go, KEEP)?;
    // From its stop on, or if bit 8 is zero from offset 0 on.
    let off = table.sender_keeps_off(let_go, table.clock_release(byte + 1));
    let rule = "without a break; if zero it doesn't pull";
    holds(off, byte, let_go, rule)?;
    let rule = "the receiver takes DATA at offset 1 to 1,000";
    after(byte, rule, offset_0, table.take(byte), TAKE)
}
