//! One step of a recording: its duration, its lines and its mark.

use core::ops::{BitAnd, BitOr};

pub(crate) const STEP_BYTES: usize = 4;

/// A step as it lies in the file.
pub(crate) type StepBytes = [u8; STEP_BYTES];

/// The four bytes as one number, little-endian: the duration below, the lines
/// from bit 16 on, the last byte with the mark on top.
#[derive(Clone, Copy)]
pub struct Step(u32);

impl Step {
    const DURATION: u32 = 0xFFFF;
    const ATTENTION: u32 = 1 << 16;
    /// #103: "its last byte is 1".
    const MARK: u32 = 1 << 24;
    /// Of the lines byte "the rest 0", and of the last byte all but the mark.
    const NEVER_SET: u32 = 0xFEF0 << 16;

    /// ATN and SRQ released, and no mark: only the recorder marks.
    pub(crate) fn new(duration: u16, lines: Lines) -> Self {
        Step(u32::from(duration) | lines.0)
    }

    #[inline]
    pub(crate) fn of(bytes: StepBytes) -> Self {
        Step(u32::from_le_bytes(bytes))
    }

    pub(crate) fn to_bytes(self) -> StepBytes {
        self.0.to_le_bytes()
    }

    #[inline]
    pub fn duration(self) -> u32 {
        self.0 & Self::DURATION
    }

    #[inline]
    pub fn attention_pulled(self) -> bool {
        self.0 & Self::ATTENTION != 0
    }

    /// #103: whether this is "a step before which ticks were lost".
    #[inline]
    pub fn marked(self) -> bool {
        self.0 & Self::MARK != 0
    }

    #[inline]
    pub fn lines(self) -> Lines {
        Lines(self.0) & Lines::PULLED
    }

    /// Whether the step has "other line bits or a last byte above 1" (#103).
    #[inline]
    pub(crate) fn has_other_bits(self) -> bool {
        self.0 & Self::NEVER_SET != 0
    }
}

/// All that is set in either step.
impl BitOr for Step {
    type Output = Self;

    #[inline]
    fn bitor(self, other: Self) -> Self {
        Step(self.0 | other.0)
    }
}

/// CLK and DATA, where they lie in a step. The others are masked out: "SRQ is
/// read and changes no answer", and ATN is asked for by itself.
#[derive(Clone, Copy, PartialEq, Eq)]
pub struct Lines(u32);

impl Lines {
    /// (0,0)
    pub const RELEASED: Lines = Lines(0);
    /// (1,0)
    pub const CLOCK: Lines = Lines(1 << 17);
    /// (0,1)
    pub const DATA: Lines = Lines(1 << 18);
    /// (1,1)
    pub const PULLED: Lines = Lines(Self::CLOCK.0 | Self::DATA.0);

    #[inline]
    pub fn clock_pulled(self) -> bool {
        self & Self::CLOCK != Self::RELEASED
    }

    #[inline]
    pub fn data_pulled(self) -> bool {
        self & Self::DATA != Self::RELEASED
    }
}

/// The lines pulled in both.
impl BitAnd for Lines {
    type Output = Self;

    #[inline]
    fn bitand(self, other: Self) -> Self {
        Lines(self.0 & other.0)
    }
}
