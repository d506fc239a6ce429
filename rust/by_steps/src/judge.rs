//! The judge: the order of the phases, and what is handed over on the way.

use crate::bits::byte;
use crate::entry::Entry;
use crate::finish::{after_finish, HandedOverBy};
use crate::handover::{handover, LedgerTicks};
use crate::phases::{end, hold, ready_for_data, ready_to_send, start};
use crate::reader::{Decision, Reader};
use crate::recording::{check, Recording};
use crate::Answer;

/// Judges the recording of a data transfer by document 01, and lost ticks in it
/// by #103 of document 02. The bytes handed over and their ticks are written to
/// `bytes` and `ledger`; nothing else there changes.
pub fn judge(file: &[u8], bytes: &mut [u8], ledger: &mut [u32]) -> Answer {
    judge_by(Entry::Plain, file, bytes, ledger)
}

/// Judges a command recording by #101 of document 02: the same refusals, the
/// same verdict on lost ticks, the same use of `bytes` and `ledger`, and the new
/// verdicts 38 and 39.
pub fn judge_command(file: &[u8], bytes: &mut [u8], ledger: &mut [u32]) -> Answer {
    judge_by(Entry::Command, file, bytes, ledger)
}

fn judge_by(entry: Entry, file: &[u8], bytes: &mut [u8], ledger: &mut [u32]) -> Answer {
    let recording = match check(file, bytes.len(), ledger.len()) {
        Ok(recording) => recording,
        Err(refusal) => return refusal,
    };
    let mut lent = Lent::new(bytes, ledger);
    let (Ok(decision) | Err(decision)) = transfer(entry, &recording, &mut lent);
    Answer {
        number: decision.number,
        tick: decision.tick,
        step: decision.step,
        count: lent.count,
    }
}

/// Reads a transfer from start to end. A byte is handed over on entering C or by
/// the finish, so one that was taken but held too briefly isn't counted.
fn transfer(entry: Entry, recording: &Recording, lent: &mut Lent) -> Result<Decision, Decision> {
    let reader = &mut Reader::new(recording, entry)?;
    start(reader)?;
    hold(reader)?;
    let mut end_mark = false;
    loop {
        ready_to_send(reader)?;
        if end_mark {
            return Ok(end(reader));
        }
        end_mark = ready_for_data(reader, entry, lent.count == 0)?;
        let byte = byte(reader)?;
        let handover = handover(reader, byte)?;
        lent.hand_over(byte, handover.ticks);
        if let HandedOverBy::Finish(finish) = handover.by {
            return Ok(after_finish(reader, finish));
        }
    }
}

/// The lent memory, seen as one place for each byte.
struct Lent<'a> {
    bytes: core::slice::IterMut<'a, u8>,
    ledger: core::slice::IterMut<'a, [u32; 2]>,
    count: u32,
}

impl<'a> Lent<'a> {
    fn new(bytes: &'a mut [u8], ledger: &'a mut [u32]) -> Self {
        let (pairs, _) = ledger.as_chunks_mut();
        Lent {
            bytes: bytes.iter_mut(),
            ledger: pairs.iter_mut(),
            count: 0,
        }
    }

    /// There is always a place: a byte takes 19 steps or more, so 16,000 steps
    /// hand over fewer than 1,000.
    fn hand_over(&mut self, byte: u8, ticks: LedgerTicks) {
        if let (Some(place), Some(pair)) = (self.bytes.next(), self.ledger.next()) {
            *place = byte;
            *pair = [ticks.let_go, ticks.take];
            self.count += 1;
        }
    }
}
