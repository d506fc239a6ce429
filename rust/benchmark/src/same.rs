//! Before anything is measured: all judges answer alike, and leave the same memory.

use crate::judges::{Judge, Lent, JUDGES};
use crate::recordings::Recording;
use by_steps::Answer;

pub fn require_same_answers(recording: &Recording) -> Result<(), String> {
    let (first, first_lent) = answer(&JUDGES[0], recording);
    if first.number != recording.number {
        return Err(format!(
            "{}: {} answered {first:?}, not {}",
            recording.name, JUDGES[0].name, recording.number
        ));
    }
    for judge in &JUDGES[1..] {
        let (other, lent) = answer(judge, recording);
        if other != first {
            return Err(format!(
                "{}: {} answered {other:?}, {} {first:?}",
                recording.name, judge.name, JUDGES[0].name
            ));
        }
        if lent != first_lent {
            return Err(format!(
                "{}: {} left other memory than {}",
                recording.name, judge.name, JUDGES[0].name
            ));
        }
    }
    Ok(())
}

fn answer(judge: &Judge, recording: &Recording) -> (Answer, Lent) {
    let mut lent = Lent::new();
    let answer = (judge.judge)(&recording.file, &mut lent.bytes, &mut lent.ledger);
    (answer, lent)
}

/// The bytes that the recording hands over.
pub fn bytes_of(recording: &Recording) -> Vec<u8> {
    let (answer, lent) = answer(&JUDGES[0], recording);
    lent.bytes[..answer.count as usize].to_vec()
}
