//! What is said of a value or a name that is no number's.

use core::fmt;

/// That an enum of numbers has none of the value, or of the name, that was asked for.
#[derive(Clone, Copy, Debug, PartialEq, Eq)]
pub struct UnknownNumber {
    /// What the enum's numbers are, in words.
    pub(crate) group: &'static str,
    /// The value, if it was asked for by value.
    pub(crate) value: Option<u32>,
}

impl fmt::Display for UnknownNumber {
    fn fmt(&self, formatter: &mut fmt::Formatter<'_>) -> fmt::Result {
        match self.value {
            Some(value) => write!(formatter, "no {} has the number {value}", self.group),
            None => write!(formatter, "no {} has that name", self.group),
        }
    }
}

impl core::error::Error for UnknownNumber {}
