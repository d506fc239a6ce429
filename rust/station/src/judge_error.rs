//! Whatever the judge answers that is no pass.

use crate::{Fault, Refusal};
use core::fmt;

/// Why a recording does not pass.
///
/// It reads as a sentence, which begins with the word `fault` or `refusal` and the number:
///
/// ```
/// use station::{Fault, JudgeError, Refusal};
///
/// let fault = JudgeError::Fault { fault: Fault::Cut, tick: 257, step: 2, count: 0 };
/// let sentence = "fault 22 (cut) at tick 257, step 2: the recording ended before the transfer was finished";
/// assert_eq!(fault.to_string(), sentence);
///
/// let refusal = JudgeError::Refusal { refusal: Refusal::StrayBits, step: 3 };
/// let sentence = "refusal 7 (stray-bits) at step 3: a step with line bits beyond the four, or a last byte above 1";
/// assert_eq!(refusal.to_string(), sentence);
/// ```
#[derive(Clone, Copy, Debug, PartialEq, Eq, Hash)]
pub enum JudgeError {
    /// The recording was judged, and its verdict is no pass.
    Fault {
        /// The verdict.
        fault: Fault,
        /// The deciding tick, one tick being 1 µs and the first tick 0; for a [cut](Fault::Cut) the recording's number of
        /// ticks.
        tick: u32,
        /// The step of the recording that holds the tick, counted from 0; for a [cut](Fault::Cut) the number of steps.
        step: u32,
        /// How many bytes were handed over before. They stand at the beginning of the buffers that were lent.
        count: u32,
    },
    /// The recording was not judged, and nothing that was lent changed. It says nothing of a drive.
    Refusal {
        /// The refusal.
        refusal: Refusal,
        /// The step that the refusal is about, counted from 0, if it [is about one](Refusal::is_about_a_step); otherwise 0.
        step: u32,
    },
}

impl JudgeError {
    /// The fault's or the refusal's number.
    #[must_use]
    pub const fn number(&self) -> u32 {
        match self {
            JudgeError::Fault { fault, .. } => fault.number(),
            JudgeError::Refusal { refusal, .. } => refusal.number(),
        }
    }

    /// The fault's or the refusal's name, as the commands print it.
    #[must_use]
    pub const fn name(&self) -> &'static str {
        match self {
            JudgeError::Fault { fault, .. } => fault.name(),
            JudgeError::Refusal { refusal, .. } => refusal.name(),
        }
    }
}

impl Refusal {
    /// Whether the refusal is about one step of the recording.
    #[must_use]
    pub const fn is_about_a_step(self) -> bool {
        matches!(self, Refusal::ZeroDuration | Refusal::StrayBits)
    }
}

impl fmt::Display for JudgeError {
    fn fmt(&self, formatter: &mut fmt::Formatter<'_>) -> fmt::Result {
        let (number, name) = (self.number(), self.name());
        match self {
            JudgeError::Fault {
                fault, tick, step, ..
            } => {
                let meaning = fault.meaning();
                write!(
                    formatter,
                    "fault {number} ({name}) at tick {tick}, step {step}: {meaning}"
                )
            }
            JudgeError::Refusal { refusal, step } => {
                write!(formatter, "refusal {number} ({name})")?;
                if refusal.is_about_a_step() {
                    write!(formatter, " at step {step}")?;
                }
                write!(formatter, ": {}", refusal.meaning())
            }
        }
    }
}

impl core::error::Error for JudgeError {}
