//! The judge's two entries.

use crate::border::{self, Entry, StationAnswer};
use crate::{CommandTransfer, Fault, JudgeError, Refusal, Transfer, COMPLETE};

/// Judges one data transfer, in which ATN is released throughout. `Ok` is a pass, and nothing else is.
///
/// `recording` is a whole recording file, and may be any bytes at all; of a long file
/// [its beginning](crate::LONGEST_RECORDING) is enough. `bytes` must have [`BYTE_ROOM`](crate::BYTE_ROOM) places or more and
/// `ledger` [`LEDGER_ROOM`](crate::LEDGER_ROOM) or more, whatever the recording; what they hold at the call does not matter.
///
/// A verdict, pass or [fault](JudgeError::Fault), leaves the bytes handed over at the beginning of `bytes`, and for each of
/// them two ticks at the beginning of `ledger`: where the sender let go of DATA, and where the receiver took it. All further
/// places keep what they held, and a [refusal](JudgeError::Refusal) changes nothing.
///
/// # Errors
///
/// For every recording that does not pass, also where bytes were handed over.
///
/// # Panics
///
/// If the library answers with what this crate does not know of the judge, which happens only if the two are of different
/// ages.
///
/// # Examples
///
/// The buffers are lent, and no memory is taken anywhere:
///
/// ```
/// use station::{judge, Fault, JudgeError, BYTE_ROOM, LEDGER_ROOM};
///
/// let (mut bytes, mut ledger) = ([0; BYTE_ROOM], [0; LEDGER_ROOM]);
/// let recording = include_bytes!("../../../samples/s1.rec");
/// let transfer = judge(recording, &mut bytes, &mut ledger)?;
/// assert_eq!(transfer.bytes(), b"A");
/// assert_eq!((transfer.finish_tick(), transfer.finish_step()), (1910, 24));
///
/// // A fault that came after a byte: the byte is in the buffer, and still it is no pass.
/// let recording = include_bytes!("../../../samples/s1-attention.rec");
/// match judge(recording, &mut bytes, &mut ledger) {
///     Ok(_) => unreachable!("ATN was pulled"),
///     Err(JudgeError::Refusal { .. }) => unreachable!("the file is of good form"),
///     Err(JudgeError::Fault { fault, count, .. }) => {
///         assert_eq!(fault, Fault::Attention);
///         assert_eq!(bytes[..count as usize], *b"A");
///     }
/// }
/// # Ok::<(), JudgeError>(())
/// ```
pub fn judge<'lent>(
    recording: &[u8],
    bytes: &'lent mut [u8],
    ledger: &'lent mut [u32],
) -> Result<Transfer<'lent>, JudgeError> {
    judge_by(Entry::Data, recording, bytes, ledger)
}

/// Judges one command transfer: bytes that are sent while ATN is pulled, until the commands are finished, and that say who is
/// to listen or to talk. `Ok` is a pass, and nothing else is.
///
/// What is lent, what is left in it, the errors and the panics are as [`judge`]'s. The pass is a type of its own, and no
/// recording passes both.
///
/// # Errors
///
/// For every recording that does not pass, also where bytes were handed over.
///
/// # Panics
///
/// As [`judge`] does.
///
/// # Examples
///
/// ```
/// use station::{judge_command, CommandClass, Fault, JudgeError, BYTE_ROOM, LEDGER_ROOM};
///
/// // The computer tells device 8 to listen, on channel 15.
/// let (mut bytes, mut ledger) = ([0; BYTE_ROOM], [0; LEDGER_ROOM]);
/// let recording = include_bytes!("../../../samples/commands/drive-addressed.rec");
/// let commands = judge_command(recording, &mut bytes, &mut ledger)?;
/// assert_eq!(commands.bytes(), [0x28, 0x6F]);
/// assert!(commands.classes().eq([CommandClass::Listen, CommandClass::Secondary]));
/// assert_eq!((commands.finish_tick(), commands.finish_step()), (2960, 41));
///
/// // A recording of a data transfer, handed to the wrong entry.
/// let recording = include_bytes!("../../../samples/s1.rec");
/// let error = judge_command(recording, &mut bytes, &mut ledger).unwrap_err();
/// let fault = Fault::AttentionReleased;
/// assert_eq!(error, JudgeError::Fault { fault, tick: 0, step: 0, count: 0 });
/// # Ok::<(), JudgeError>(())
/// ```
pub fn judge_command<'lent>(
    recording: &[u8],
    bytes: &'lent mut [u8],
    ledger: &'lent mut [u32],
) -> Result<CommandTransfer<'lent>, JudgeError> {
    judge_by(Entry::Command, recording, bytes, ledger).map(CommandTransfer)
}

/// What both entries do.
fn judge_by<'lent>(
    entry: Entry,
    recording: &[u8],
    bytes: &'lent mut [u8],
    ledger: &'lent mut [u32],
) -> Result<Transfer<'lent>, JudgeError> {
    let crossed = border::judge(entry, recording, bytes, ledger);
    require_pass(crossed)?;
    let count = crossed.count as usize;
    Ok(Transfer {
        bytes: &bytes[..count],
        ledger: &ledger[..2 * count],
        finish_tick: crossed.tick,
        finish_step: crossed.step,
    })
}

/// Whether what crossed is a pass. A refusal's tick and count, which an error has no place for, must be 0.
fn require_pass(crossed: StationAnswer) -> Result<(), JudgeError> {
    let (number, step) = (crossed.number, crossed.step);
    if number == COMPLETE {
        return Ok(());
    }
    match (Fault::try_from(number), Refusal::try_from(number)) {
        (Ok(fault), _) => Err(JudgeError::Fault {
            fault,
            tick: crossed.tick,
            step,
            count: crossed.count,
        }),
        (_, Ok(refusal)) if (crossed.tick, crossed.count) == (0, 0) => {
            Err(JudgeError::Refusal { refusal, step })
        }
        _ => crossed.stop("judge"),
    }
}

#[cfg(test)]
mod tests {
    use super::*;
    use crate::WriteRefusal;
    use std::panic::catch_unwind;

    fn crossed(number: u32, tick: u32, count: u32) -> StationAnswer {
        StationAnswer {
            number,
            tick,
            step: 2,
            count,
        }
    }

    /// None if it stops the program.
    fn required(crossed: StationAnswer) -> Option<Result<(), JudgeError>> {
        catch_unwind(|| require_pass(crossed)).ok()
    }

    #[test]
    fn a_fault_keeps_all_four_numbers() {
        for &fault in Fault::ALL {
            let error = JudgeError::Fault {
                fault,
                tick: 1,
                step: 2,
                count: 3,
            };
            assert_eq!(required(crossed(fault.number(), 1, 3)), Some(Err(error)));
        }
    }

    #[test]
    fn a_refusal_keeps_its_step_and_has_no_tick_and_no_count() {
        for &refusal in Refusal::ALL {
            let error = JudgeError::Refusal { refusal, step: 2 };
            assert_eq!(required(crossed(refusal.number(), 0, 0)), Some(Err(error)));
            assert_eq!(required(crossed(refusal.number(), 1, 0)), None);
            assert_eq!(required(crossed(refusal.number(), 0, 3)), None);
        }
    }

    #[test]
    fn only_20_passes_and_a_number_of_another_entry_stops_the_program() {
        for number in 0..300 {
            let required = required(crossed(number, 0, 0));
            assert_eq!(required == Some(Ok(())), number == 20, "{number}");
            let is_error = Fault::try_from(number).is_ok() || Refusal::try_from(number).is_ok();
            assert_eq!(required.is_none(), number != 20 && !is_error, "{number}");
        }
        for refusal in WriteRefusal::ALL {
            assert_eq!(required(crossed(refusal.number(), 0, 0)), None);
        }
    }

    #[test]
    #[should_panic(
        expected = "answered with the number 4294967295, which this crate does not know of the judge"
    )]
    fn an_unknown_number_is_named_in_the_message() {
        let _ = require_pass(crossed(u32::MAX, 0, 0));
    }
}
