//! The handover of a byte, from the CLK pull after bit 8 to the first tick of C,
//! or to the finish of a command recording.
//!
//! "CLK released while DATA has been open, and DATA released in the same tick as
//! CLK: 26" is read as two cases: any release of CLK in *open*, and (0,0) in
//! *carried*. Read as one case it would leave (0,1) in *open* and (0,0) in
//! *carried* without an answer.

use crate::finish::{finish, HandedOverBy};
use crate::limits::{CARRIED_MOST, EARLIEST_TAKE, HOLD_AFTER_TAKE, TAKE_WAIT};
use crate::numbers::{HURRIED, OUT_OF_TURN, RECEIVER_TIME_OUT};
use crate::phases::hold_after_take;
use crate::reader::{Decision, Reader};
use crate::step::Lines;

const BIT_8: u8 = 0x80;

/// A byte's two ticks in the ledger.
#[derive(Clone, Copy)]
pub struct LedgerTicks {
    pub let_go: u32,
    pub take: u32,
}

/// A byte's handover, read to its end.
pub struct Handover {
    pub ticks: LedgerTicks,
    pub by: HandedOverBy,
}

/// Reads the handover of `byte`, and B with it where B comes before C or before
/// the finish.
#[inline]
pub fn handover(reader: &mut Reader, byte: u8) -> Result<Handover, Decision> {
    if byte & BIT_8 != 0 {
        carried(reader)
    } else if reader.lines() == Lines::PULLED {
        Err(reader.decide(OUT_OF_TURN))
    } else {
        let pull = reader.tick();
        open(reader, pull)
    }
}

/// *Carried*: bit 8 is one and DATA pulled without a break. Without a limit:
/// "(1,1) stays". DATA let go at offset 0 is "(1,0) at offset up to 100", too.
#[inline]
fn carried(reader: &mut Reader) -> Result<Handover, Decision> {
    let pull = reader.tick();
    let take = pull + EARLIEST_TAKE;
    let ticks = LedgerTicks { let_go: take, take };
    match reader.stay(Lines::PULLED) {
        Err(stopped) => {
            let by = finish(reader, stopped, take)?;
            Ok(Handover { ticks, by })
        }
        Ok(Lines::CLOCK) if reader.tick() - pull <= CARRIED_MOST => open(reader, pull),
        Ok(Lines::DATA) if reader.tick() < take + HOLD_AFTER_TAKE => Err(reader.decide(HURRIED)),
        Ok(Lines::DATA) => {
            let by = HandedOverBy::ReadyToSend;
            Ok(Handover { ticks, by })
        }
        Ok(_) => Err(reader.decide(OUT_OF_TURN)),
    }
}

/// *Open*, entered in the tick that shows the letting go. Its offsets go on
/// counting from the CLK pull: "Handover, offset 0 being the CLK pull".
#[inline]
fn open(reader: &mut Reader, pull: u32) -> Result<Handover, Decision> {
    let let_go = reader.tick();
    match reader.stay_until(Lines::CLOCK, pull + TAKE_WAIT, RECEIVER_TIME_OUT)? {
        Lines::PULLED => {
            let take = reader.tick();
            let by = hold_after_take(reader)?;
            let ticks = LedgerTicks { let_go, take };
            Ok(Handover { ticks, by })
        }
        _ => Err(reader.decide(OUT_OF_TURN)),
    }
}
