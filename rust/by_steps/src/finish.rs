//! The finish of a command recording (#101), and what comes after it.
//!
//! "The finish is the first tick with ATN released; it must show (1,1), in B or
//! in a carried handover, 100 or more ticks after the last take, and hands the
//! last byte over."
//!
//! "In B" is read as: B was entered in an earlier tick. The tick of the take
//! leads into B but is still read in the handover, and it comes 0 ticks after
//! the take besides. The take of a carried handover is the one that document 01
//! gives it, offset 1, so its finish comes at offset 101 or later.
//!
//! The first tick of a marked step is no finish, whatever it shows: #103 gives 40
//! there "before ATN is looked at". So it doesn't hand the last byte over.

use crate::limits::FINISH_AFTER_TAKE;
use crate::numbers::{ATTENTION_RELEASED, COMPLETE, MOVED_AFTER_THE_END, RECORDER_OVERRUN};
use crate::reader::{Decision, Reader};
use crate::step::{Lines, Step};

/// What hands a byte over.
pub enum HandedOverBy {
    /// Document 01, C: "Entering it after a byte hands that byte over."
    ReadyToSend,
    /// The finish, which "hands the last byte over". With it comes the answer
    /// of "running out gives 20 with the finish tick".
    Finish(Decision),
}

/// In B after a byte or in a carried handover the reading was stopped by
/// `stopped`: the finish, if it is an ATN release that shows what it must, and
/// otherwise `stopped` as it is.
pub fn finish(
    reader: &Reader,
    stopped: Decision,
    last_take: u32,
) -> Result<HandedOverBy, Decision> {
    let released = stopped.number == ATTENTION_RELEASED;
    let both_hold = reader.lines_at_stop() == Some(Lines::PULLED);
    let too_soon = stopped.tick < last_take + FINISH_AFTER_TAKE;
    if released && both_hold && !too_soon {
        Ok(HandedOverBy::Finish(Decision {
            number: COMPLETE,
            ..stopped
        }))
    } else {
        Err(stopped)
    }
}

/// Reads on from the finish; running out gives the finish itself.
pub fn after_finish(reader: &Reader, finish: Decision) -> Decision {
    let mut tick = finish.tick;
    for (place, step) in (finish.step..).zip(reader.steps_from_stop()) {
        if let Some(number) = number_after_finish(step) {
            return Decision {
                number,
                tick,
                step: place,
            };
        }
        tick += step.duration();
    }
    finish
}

/// "After the finish only a pull of ATN matters: 37." Since #103 a mark does too,
/// and comes first: 40 "before ATN is looked at, also ... after #101's finish".
fn number_after_finish(step: Step) -> Option<u32> {
    if step.marked() {
        Some(RECORDER_OVERRUN)
    } else if step.attention_pulled() {
        Some(MOVED_AFTER_THE_END)
    } else {
        None
    }
}
