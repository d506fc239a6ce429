//! The eight bits of a byte, from the CLK pull that begins them to the one that
//! follows them.

use crate::limits::{SET_UP_MOST, VALID_LEAST, VALID_MOST};
use crate::numbers::{CLOCK_STALL, DATA_MOVED, VALID_TIME_SHORT};
use crate::reader::{Decision, Reader};
use crate::step::Lines;

/// Reads a byte, "least significant first, pulled is one".
pub fn byte(reader: &mut Reader) -> Result<u8, Decision> {
    let mut value = 0;
    for bit in 0..u8::BITS {
        let lines = set_up(reader)?;
        valid(reader, lines)?;
        value |= u8::from(lines.data_pulled()) << bit;
    }
    Ok(value)
}

/// Set-up, of 1 to 200 ticks with DATA free. Hands back the valid lines, whose
/// DATA must be that of the last set-up tick.
fn set_up(reader: &mut Reader) -> Result<Lines, Decision> {
    let most = reader.tick() + SET_UP_MOST;
    let mut last = reader.lines();
    let mut lines = last;
    while lines.clock_pulled() {
        reader.limit(CLOCK_STALL, most)?;
        last = lines;
        lines = reader.advance()?;
    }
    if lines.data_pulled() != last.data_pulled() {
        return Err(reader.decide(DATA_MOVED));
    }
    Ok(lines)
}

/// Valid, of 20 to 200 ticks with the same lines.
///
/// "DATA changing while valid: 33" stands before "A 201st valid tick: 34", so a
/// 201st tick that shows a change is 33. The tick that pulls CLK is no valid
/// tick any more ("Valid: CLK released") but a set-up tick, with DATA free: with
/// a change in it, too, it's 32 where it comes too soon and right otherwise.
fn valid(reader: &mut Reader, lines: Lines) -> Result<(), Decision> {
    let first = reader.tick();
    let next = reader.stay_until(lines, first + VALID_MOST, CLOCK_STALL)?;
    if !next.clock_pulled() {
        return Err(reader.decide(DATA_MOVED));
    }
    if reader.tick() - first < VALID_LEAST {
        return Err(reader.decide(VALID_TIME_SHORT));
    }
    Ok(())
}
