//! The phases around a byte's bits, A to G and E. Each function begins in its
//! phase's first tick and ends in the first tick of the phase that follows.

use crate::entry::Entry;
use crate::finish::{finish, HandedOverBy};
use crate::limits::{
    ACKNOWLEDGEMENT_LEAST, ACKNOWLEDGEMENT_MOST, CLOCK_AFTER_ACKNOWLEDGEMENT, END_MARK,
    HOLD_AFTER_TAKE, RECEIVER_WAIT, SENDER_WAIT,
};
use crate::numbers::{
    ACKNOWLEDGEMENT_LONG, ACKNOWLEDGEMENT_SHORT, BAD_START, COMPLETE, CUT, EMPTY_STREAM, HURRIED,
    LATE_CLOCK, MOVED_AFTER_THE_END, NO_RECEIVER, OUT_OF_TURN, SENDER_TIME_OUT,
};
use crate::reader::{Decision, Reader};
use crate::step::Lines;

/// A. Its first tick is tick 0, so offsets are ticks.
#[inline]
pub fn start(reader: &mut Reader) -> Result<(), Decision> {
    if !reader.lines().clock_pulled() {
        return Err(reader.decide(BAD_START));
    }
    match reader.stay_until(Lines::CLOCK, RECEIVER_WAIT, NO_RECEIVER)? {
        Lines::PULLED => Ok(()),
        _ => Err(reader.decide(OUT_OF_TURN)),
    }
}

/// B before the first byte, where no take limits the release of CLK. There is no
/// finish: "ATN released ... in B before any byte ... gives 39".
#[inline]
pub fn hold(reader: &mut Reader) -> Result<(), Decision> {
    match reader.stay(Lines::PULLED)? {
        Lines::DATA => Ok(()),
        _ => Err(reader.decide(OUT_OF_TURN)),
    }
}

/// B after a byte; its first tick is the take. Left for C, or by the finish.
#[inline]
pub fn hold_after_take(reader: &mut Reader) -> Result<HandedOverBy, Decision> {
    let take = reader.tick();
    if let Err(stopped) = hold(reader) {
        return finish(reader, stopped, take);
    }
    if reader.tick() - take < HOLD_AFTER_TAKE {
        return Err(reader.decide(HURRIED));
    }
    Ok(HandedOverBy::ReadyToSend)
}

/// C, left for D or E alike.
#[inline]
pub fn ready_to_send(reader: &mut Reader) -> Result<(), Decision> {
    match reader.stay(Lines::DATA)? {
        Lines::RELEASED => Ok(()),
        _ => Err(reader.decide(OUT_OF_TURN)),
    }
}

/// D, and F and G where an end mark leads through them, up to the CLK pull that
/// begins the bits. Hands back whether the byte has the end mark.
///
/// CLK has to be pulled before offset 200 and DATA from there on; the other way
/// round is 26. The limit leaves at most offset 290 to both. At 290 itself their
/// rows come first: CLK pulled is 26, (0,1) goes to F, only (0,0) is 27.
///
/// A command recording goes "without ... end mark: in D, (0,0) at offset 199
/// gives 38". That is the same row with a sooner limit, so at 199 itself the
/// other rows come first again: CLK pulled begins the bits, (0,1) is 26. No
/// offset from 200 on is left, so F and G aren't reached.
#[inline]
pub fn ready_for_data(reader: &mut Reader, entry: Entry, no_byte: bool) -> Result<bool, Decision> {
    let ready = reader.tick();
    let (limit, number) = entry.silence_limit();
    let lines = reader.stay_until(Lines::RELEASED, ready + limit, number)?;
    let end_mark = reader.tick() - ready >= END_MARK;
    if lines.clock_pulled() == end_mark {
        return Err(reader.decide(OUT_OF_TURN));
    }
    if end_mark {
        acknowledgement(reader)?;
        after_acknowledgement(reader, ready, no_byte)?;
    }
    Ok(end_mark)
}

/// F.
fn acknowledgement(reader: &mut Reader) -> Result<(), Decision> {
    let first = reader.tick();
    let most = first + ACKNOWLEDGEMENT_MOST;
    match reader.stay_until(Lines::DATA, most, ACKNOWLEDGEMENT_LONG)? {
        Lines::RELEASED if reader.tick() - first < ACKNOWLEDGEMENT_LEAST => {
            Err(reader.decide(ACKNOWLEDGEMENT_SHORT))
        }
        Lines::RELEASED => Ok(()),
        _ => Err(reader.decide(OUT_OF_TURN)),
    }
}

/// G, which document 01 gives no name. Its time-out counts from D's first tick,
/// `ready`, and lies ahead: D and F last 440 ticks at most.
fn after_acknowledgement(reader: &mut Reader, ready: u32, no_byte: bool) -> Result<(), Decision> {
    let first = reader.tick();
    let time_out = if no_byte {
        EMPTY_STREAM
    } else {
        SENDER_TIME_OUT
    };
    match reader.stay_until(Lines::RELEASED, ready + SENDER_WAIT, time_out)? {
        Lines::DATA => Err(reader.decide(OUT_OF_TURN)),
        _ if reader.tick() - first > CLOCK_AFTER_ACKNOWLEDGEMENT => Err(reader.decide(LATE_CLOCK)),
        _ => Ok(()),
    }
}

/// E. "The recording running out gives 20 in E", at the finish tick; a tick with
/// ATN pulled gives 23 here too, and the first one of a marked step 40.
pub fn end(reader: &mut Reader) -> Decision {
    let finish = reader.decide(COMPLETE);
    match reader.stay(Lines::RELEASED) {
        Ok(_) => reader.decide(MOVED_AFTER_THE_END),
        Err(decision) if decision.number == CUT => finish,
        Err(decision) => decision,
    }
}
