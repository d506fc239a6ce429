//! The times of document 01, "The two parties' own rules", each under one name. Request #101 has no others.

use std::fmt;

/// How many ticks may lie between two changes, both ends included.
#[derive(Clone, Copy, Debug, PartialEq, Eq)]
pub struct Window {
    /// The fewest.
    pub least: u32,
    /// The most; [`NO_LIMIT`] if there is none.
    pub most: u32,
}

/// Stands for "or more".
pub const NO_LIMIT: u32 = u32::MAX;

impl Window {
    const fn new(least: u32, most: u32) -> Window {
        Window { least, most }
    }

    /// Whether that many ticks lie in the window. A change that comes before the other gives a negative number.
    #[must_use]
    pub fn has(self, ticks: i64) -> bool {
        i64::from(self.least) <= ticks && (self.most == NO_LIMIT || ticks <= i64::from(self.most))
    }
}

impl fmt::Display for Window {
    fn fmt(&self, formatter: &mut fmt::Formatter<'_>) -> fmt::Result {
        match self.most {
            NO_LIMIT => write!(formatter, "{} or more", self.least),
            most => write!(formatter, "{} to {most}", self.least),
        }
    }
}

/// "The receiver takes DATA at tick 0 to 256".
pub const FIRST_TAKE: Window = Window::new(0, 256);
/// "The sender releases CLK 1 or more ticks after that take".
pub const FIRST_HOLD: Window = Window::new(1, NO_LIMIT);
/// "for later bytes, and after the last, 100 or more after the latest take". A command's finish "comes 100 or more ticks
/// after the latest take" too.
pub const LATER_HOLD: Window = Window::new(100, NO_LIMIT);
/// "The receiver lets go 1 or more ticks later."
pub const READY_TO_SEND: Window = Window::new(1, NO_LIMIT);
/// "Not the last byte: the sender pulls CLK 1 to 199 ticks after the letting go." In a command "the CLK pull before the
/// last byte's bits keeps the 1 to 199".
pub const READY_FOR_DATA: Window = Window::new(1, 199);
/// "Last byte: the receiver pulls DATA 200 to 290 ticks after".
pub const END_MARK: Window = Window::new(200, 290);
/// "for 60 to 150 ticks".
pub const ACKNOWLEDGEMENT: Window = Window::new(60, 150);
/// "the sender pulls CLK 1 to 60 ticks after that".
pub const AFTER_ACKNOWLEDGEMENT: Window = Window::new(1, 60);
/// "CLK pulled for 1 to 200 ticks" (the judge's phases, "Bits", which the parties' rules cite).
pub const SET_UP: Window = Window::new(1, 200);
/// "CLK pulled after fewer than 20 valid ticks", "A 201st valid tick" are wrong (the same place).
pub const VALID: Window = Window::new(20, 200);
/// "If that bit was one it may go on pulling DATA without a break and stops at offset 0 to 100".
pub const KEEP: Window = Window::new(0, 100);
/// "The receiver takes DATA at offset 1 to 1,000".
pub const TAKE: Window = Window::new(1, 1000);
/// "The tick of the last letting go is in the recording": how many ticks there are from it to the recording's end.
pub const SILENCE: Window = Window::new(1, NO_LIMIT);
