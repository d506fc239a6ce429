//! The times of "The judge's phases" and of request #101, in ticks. "Each house time has one name,
//! used wherever the time is meant": two times of equal length are two names.

/// A: (1,0) at this offset is 24.
pub const RECEIVER_WAIT: u32 = 256;

/// B: the least time from a byte's take to the CLK release after it.
pub const HOLD_AFTER_TAKE: u32 = 100;

/// The finish of a command recording: the least time from the last take to it.
pub const FINISH_AFTER_TAKE: u32 = 100;

/// D: from this offset on the silence is an end mark, before it plain.
pub const END_MARK: u32 = 200;

/// D under attention: (0,0) at this offset, the last plain one, is 38.
pub const PLAIN_SILENCE_MOST: u32 = 199;

/// D: (0,0) at this offset is 27.
pub const END_MARK_WAIT: u32 = 290;

/// F: the shortest acknowledgement.
pub const ACKNOWLEDGEMENT_LEAST: u32 = 60;

/// F: (0,1) at this offset is 29.
pub const ACKNOWLEDGEMENT_MOST: u32 = 150;

/// G: the last offset at which CLK may be pulled.
pub const CLOCK_AFTER_ACKNOWLEDGEMENT: u32 = 60;

/// G: (0,0) this long after D's first tick is 21 or 31.
pub const SENDER_WAIT: u32 = 512;

/// Bits: the most ticks of a set-up.
pub const SET_UP_MOST: u32 = 200;

/// Bits: the fewest valid ticks.
pub const VALID_LEAST: u32 = 20;

/// Bits: the most valid ticks.
pub const VALID_MOST: u32 = 200;

/// Handover: the first offset at which a receiver may take DATA. "No receiver
/// reacts in the same tick."
pub const EARLIEST_TAKE: u32 = 1;

/// Handover: (1,0) at this offset is 35.
pub const TAKE_WAIT: u32 = 1000;

/// Handover: the last offset at which a carried DATA may be let go.
pub const CARRIED_MOST: u32 = 100;
