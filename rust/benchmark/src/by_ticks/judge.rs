//! The judge: the loops over steps and ticks, and the lent memory.

use super::state::{Byte, Lines, Next, Phase, Place, State};
use super::verdict::Verdict;
use by_steps::recording::{check, Recording, Step};
use by_steps::Answer;

/// Judges a recording. The bytes handed over and their ticks are written to
/// `bytes` and `ledger`; nothing else there changes.
pub fn judge(file: &[u8], bytes: &mut [u8], ledger: &mut [u32]) -> Answer {
    match check(file, bytes.len(), ledger.len()) {
        Ok(recording) => read(&recording, bytes, ledger),
        Err(refusal) => refusal,
    }
}

/// "Reading goes from state to state, one tick after another, and stops for good
/// at the deciding tick."
fn read(recording: &Recording, bytes: &mut [u8], ledger: &mut [u32]) -> Answer {
    let mut state = State::START;
    let mut now = Place { tick: 0, step: 0 };
    let verdict = 'reading: {
        for step in recording.steps() {
            let lines = lines_of(step);
            for _ in 0..step.duration() {
                match state.next(now, lines) {
                    Next::Stay => {}
                    Next::Go(next) => state = next,
                    Next::HandOver(next) => {
                        put(next.byte, state.count as usize, bytes, ledger);
                        state = next;
                    }
                    Next::Stop(verdict) => break 'reading verdict,
                }
                now.tick += 1;
            }
            now.step += 1;
        }
        if state.phase == Phase::End {
            now = state.first;
            Verdict::Complete
        } else {
            Verdict::Cut
        }
    };
    Answer {
        number: verdict as u32,
        tick: now.tick,
        step: now.step,
        count: state.count,
    }
}

fn lines_of(step: Step) -> Lines {
    let lines = step.lines();
    Lines {
        attention: step.attention_pulled(),
        clock: lines.clock_pulled(),
        data: lines.data_pulled(),
    }
}

/// Puts down the byte handed over after `count` others. It has its places: 1,000
/// bytes don't fit into 16,000 steps.
fn put(byte: Byte, count: usize, bytes: &mut [u8], ledger: &mut [u32]) {
    let (pairs, _) = ledger.as_chunks_mut();
    if let (Some(place), Some(pair)) = (bytes.get_mut(count), pairs.get_mut(count)) {
        *place = byte.value;
        *pair = [byte.let_go, byte.take];
    }
}
