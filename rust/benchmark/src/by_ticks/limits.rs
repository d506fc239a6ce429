//! The times of "The judge's phases", in ticks.
//!
//! They are set down from document 01 by themselves and not shared with the
//! judge by steps: a time mistaken in one of the two shows as a difference.

/// Each time by one name.
pub struct Limits;

impl Limits {
    /// A: how long the sender waits for a receiver.
    pub const NO_RECEIVER: u32 = 256;
    /// B: from a byte's take to the sender's release of CLK.
    pub const TAKE_TO_RELEASE: u32 = 100;
    /// D: the silence that makes an end mark.
    pub const END_MARK: u32 = 200;
    /// D: the silence by which the end mark must be acknowledged.
    pub const NOT_ACKNOWLEDGED: u32 = 290;
    /// F: below it the acknowledgement is short.
    pub const ACKNOWLEDGEMENT_SHORT: u32 = 60;
    /// F: the acknowledgement still there at this offset is long.
    pub const ACKNOWLEDGEMENT_LONG: u32 = 150;
    /// G: a CLK pull after this offset is late.
    pub const CLOCK_IN_TIME: u32 = 60;
    /// G: the time-out, from D's first tick.
    pub const SENDER_TIME_OUT: u32 = 512;
    /// Bits: the ticks a set-up may last.
    pub const SET_UP: u32 = 200;
    /// Bits: the ticks a bit may be valid.
    pub const VALID: u32 = 200;
    /// Bits: the ticks a bit must be valid.
    pub const VALID_AT_LEAST: u32 = 20;
    /// Handover: the offset of the earliest take.
    pub const FIRST_TAKE: u32 = 1;
    /// Handover: the time-out of the receiver.
    pub const RECEIVER_TIME_OUT: u32 = 1_000;
    /// Handover: the last offset of a letting go by the sender.
    pub const LAST_LETTING_GO: u32 = 100;
}
