//! The writer's entry.

use crate::border::{self, StationAnswer};
use crate::{WriteRefusal, WRITTEN};

/// A recording that was written. It says nothing of a drive.
#[derive(Clone, Copy, Debug, PartialEq, Eq)]
pub struct Written<'lent> {
    recording: &'lent [u8],
}

impl<'lent> Written<'lent> {
    /// The recording: the beginning of the destination that was lent.
    #[must_use]
    pub const fn recording(&self) -> &'lent [u8] {
        self.recording
    }
}

/// Writes the sample recording of `bytes`, at most [`MOST_BYTES`](crate::MOST_BYTES), to the beginning of `destination`,
/// which must have [`written_length(bytes.len())`](crate::written_length) places or more. All further places keep what they
/// held. The judge reads these very bytes from it; where there are none it finds an
/// [empty stream](crate::Fault::EmptyStream), which is no pass.
///
/// ```
/// use station::{write, written_length, WriteRefusal};
///
/// let mut destination = [0; written_length(5)];
/// let written = write(b"HELLO", &mut destination)?;
/// assert_eq!(written.recording().len(), 436);
///
/// assert_eq!(write(b"HELLO!", &mut destination), Err(WriteRefusal::ShortDestination));
/// # Ok::<(), WriteRefusal>(())
/// ```
///
/// # Errors
///
/// [`TooManyBytes`](WriteRefusal::TooManyBytes), or [`ShortDestination`](WriteRefusal::ShortDestination). Nothing changes
/// then.
///
/// # Panics
///
/// If the library answers with what this crate does not know of the writer, which happens only if the two are of different
/// ages.
pub fn write<'lent>(
    bytes: &[u8],
    destination: &'lent mut [u8],
) -> Result<Written<'lent>, WriteRefusal> {
    let length = written(border::write(bytes, destination))?;
    Ok(Written {
        recording: &destination[..length],
    })
}

/// The length of what was written. Whatever else crosses, which has no place in the answer, must be 0.
fn written(crossed: StationAnswer) -> Result<usize, WriteRefusal> {
    let (number, rest) = (crossed.number, (crossed.tick, crossed.step, crossed.count));
    match (number, WriteRefusal::try_from(number), rest) {
        (WRITTEN, _, (0, 0, length)) => Ok(length as usize),
        (_, Ok(refusal), (0, 0, 0)) => Err(refusal),
        _ => crossed.stop("writer"),
    }
}

#[cfg(test)]
mod tests {
    use super::*;
    use std::panic::catch_unwind;

    /// None if it stops the program.
    fn answered(
        number: u32,
        tick: u32,
        step: u32,
        count: u32,
    ) -> Option<Result<usize, WriteRefusal>> {
        let crossed = StationAnswer {
            number,
            tick,
            step,
            count,
        };
        catch_unwind(|| written(crossed)).ok()
    }

    #[test]
    fn what_was_written_has_a_length_and_a_refusal_has_nothing() {
        assert_eq!(answered(WRITTEN, 0, 0, 36), Some(Ok(36)));
        for &refusal in WriteRefusal::ALL {
            assert_eq!(answered(refusal.number(), 0, 0, 0), Some(Err(refusal)));
            assert_eq!(answered(refusal.number(), 0, 0, 1), None);
        }
        for number in [WRITTEN, 10] {
            assert_eq!(answered(number, 1, 0, 0), None);
            assert_eq!(answered(number, 0, 1, 0), None);
        }
    }

    #[test]
    fn a_number_of_another_entry_stops_the_program() {
        for number in 0..300 {
            let known = number == WRITTEN || WriteRefusal::try_from(number).is_ok();
            assert_eq!(answered(number, 0, 0, 0).is_some(), known, "{number}");
        }
    }
}
