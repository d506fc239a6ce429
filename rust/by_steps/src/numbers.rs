//! The numbers of "Numbers and what they leave" and of the requests #101 (38 and
//! 39) and #103 (40), each by one name.

/// The writer's number where it refuses nothing.
pub const WRITTEN: u32 = 0;

pub const UNDER_SIXTEEN_BYTES: u32 = 1;
pub const OTHER_VERSION: u32 = 2;
pub const TOO_MANY_STEPS: u32 = 3;
pub const OTHER_OFFSET: u32 = 4;
pub const LENGTH_WRONG: u32 = 5;
pub const DURATION_ZERO: u32 = 6;
pub const OTHER_BITS: u32 = 7;
pub const TOTAL_TICKS_WRONG: u32 = 8;
pub const TOO_LITTLE_LENT: u32 = 9;
pub const TOO_MANY_BYTES: u32 = 10;
pub const DESTINATION_TOO_SMALL: u32 = 11;

pub const COMPLETE: u32 = 20;
pub const EMPTY_STREAM: u32 = 21;
pub const CUT: u32 = 22;
pub const ATTENTION: u32 = 23;
pub const NO_RECEIVER: u32 = 24;
pub const BAD_START: u32 = 25;
pub const OUT_OF_TURN: u32 = 26;
pub const END_MARK_NOT_ACKNOWLEDGED: u32 = 27;
pub const ACKNOWLEDGEMENT_SHORT: u32 = 28;
pub const ACKNOWLEDGEMENT_LONG: u32 = 29;
pub const LATE_CLOCK: u32 = 30;
pub const SENDER_TIME_OUT: u32 = 31;
pub const VALID_TIME_SHORT: u32 = 32;
pub const DATA_MOVED: u32 = 33;
pub const CLOCK_STALL: u32 = 34;
pub const RECEIVER_TIME_OUT: u32 = 35;
pub const HURRIED: u32 = 36;
pub const MOVED_AFTER_THE_END: u32 = 37;
pub const END_MARK_UNDER_ATTENTION: u32 = 38;
/// #101 gives it no name of its own: "ATN released otherwise".
pub const ATTENTION_RELEASED: u32 = 39;
/// #103 gives it no name of its own either; this one is the request's heading.
pub const RECORDER_OVERRUN: u32 = 40;
