//! The judge and the writer with memory of their own.

use crate::{judge, judge_command, write, written_length, Handovers};
use crate::{CommandTransfer, JudgeError, Transfer, WriteRefusal};
use crate::{BYTE_ROOM, LEDGER_ROOM, MOST_BYTES};
use std::vec;
use std::vec::Vec;

/// A judge that owns its buffers, for one recording after another.
///
/// ```
/// use station::{Fault, Judge, JudgeError};
///
/// let mut judge = Judge::new();
/// let transfer = judge.judge(include_bytes!("../../../samples/s1.rec"))?;
/// assert_eq!(transfer.bytes(), b"A");
///
/// // A fault that came after a byte.
/// let error = judge.judge(include_bytes!("../../../samples/s1-attention.rec")).unwrap_err();
/// assert_eq!(error.name(), "attention");
/// let before: Vec<u8> = judge.before_fault().map(|handover| handover.byte).collect();
/// assert_eq!(before, b"A");
/// # Ok::<(), JudgeError>(())
/// ```
#[derive(Clone, Debug)]
pub struct Judge {
    bytes: Vec<u8>,
    ledger: Vec<u32>,
    /// How many bytes were handed over before the last recording's fault.
    before_fault: usize,
}

impl Judge {
    /// A judge that has judged nothing yet.
    #[must_use]
    pub fn new() -> Judge {
        Judge {
            bytes: vec![0; BYTE_ROOM],
            ledger: vec![0; LEDGER_ROOM],
            before_fault: 0,
        }
    }

    /// Judges one data transfer, as [`judge()`] does. `Ok` is a pass, and nothing else is.
    ///
    /// # Errors
    ///
    /// For every recording that does not pass.
    ///
    /// # Panics
    ///
    /// As [`judge()`] does.
    pub fn judge(&mut self, recording: &[u8]) -> Result<Transfer<'_>, JudgeError> {
        let judged = judge(recording, &mut self.bytes, &mut self.ledger);
        self.before_fault = before_fault(&judged);
        judged
    }

    /// Judges one command transfer, as [`judge_command()`] does. `Ok` is a pass, and nothing else is.
    ///
    /// ```
    /// use station::{CommandClass, Judge};
    ///
    /// let mut judge = Judge::new();
    /// let commands = judge.judge_command(include_bytes!("../../../samples/commands/drive-addressed.rec"))?;
    /// assert_eq!(commands.bytes(), [0x28, 0x6F]);
    ///
    /// // ATN was released too soon: one byte was handed over before.
    /// let error = judge.judge_command(include_bytes!("../../../samples/commands/last-hold-99.rec")).unwrap_err();
    /// assert_eq!(error.name(), "attention-released");
    /// let before: Vec<CommandClass> = judge.before_fault().map(|handover| CommandClass::of(handover.byte)).collect();
    /// assert_eq!(before, [CommandClass::Listen]);
    /// # Ok::<(), station::JudgeError>(())
    /// ```
    ///
    /// # Errors
    ///
    /// For every recording that does not pass.
    ///
    /// # Panics
    ///
    /// As [`judge_command()`] does.
    pub fn judge_command(&mut self, recording: &[u8]) -> Result<CommandTransfer<'_>, JudgeError> {
        let judged = judge_command(recording, &mut self.bytes, &mut self.ledger);
        self.before_fault = before_fault(&judged);
        judged
    }

    /// What the last recording handed over before its fault. There is none of a recording that passed or was refused.
    #[must_use]
    pub fn before_fault(&self) -> Handovers<'_> {
        Handovers::of(&self.bytes[..self.before_fault], &self.ledger)
    }
}

/// How many bytes were handed over before a fault.
fn before_fault<Pass>(judged: &Result<Pass, JudgeError>) -> usize {
    match judged {
        Err(JudgeError::Fault { count, .. }) => *count as usize,
        Ok(_) | Err(JudgeError::Refusal { .. }) => 0,
    }
}

impl Default for Judge {
    fn default() -> Judge {
        Judge::new()
    }
}

/// The sample recording of `bytes`, as [`write()`] writes it.
///
/// ```
/// use station::{write_to_vec, Judge};
///
/// let recording = write_to_vec(b"HELLO")?;
/// assert_eq!(Judge::new().judge(&recording)?.bytes(), b"HELLO");
/// # Ok::<(), Box<dyn std::error::Error>>(())
/// ```
///
/// # Errors
///
/// [`TooManyBytes`](WriteRefusal::TooManyBytes) for more than [`MOST_BYTES`].
///
/// # Panics
///
/// As [`write()`] does.
pub fn write_to_vec(bytes: &[u8]) -> Result<Vec<u8>, WriteRefusal> {
    // A longer string is refused, whatever the room.
    let mut recording = vec![0; written_length(bytes.len().min(MOST_BYTES))];
    write(bytes, &mut recording)?;
    Ok(recording)
}
