//! The library's answers as plain numbers, the form that `by_steps` gives its own in, so that the two can be compared.

#![forbid(unsafe_code)]

use by_steps::Answer;
use station::{CommandClass, Fault, JudgeError, Refusal, WriteRefusal, COMPLETE, WRITTEN};

/// [`station::judge`].
pub fn judge(recording: &[u8], bytes: &mut [u8], ledger: &mut [u32]) -> Answer {
    let judged = station::judge(recording, bytes, ledger);
    answer_of(judged.map(|data| (data.finish_tick(), data.finish_step(), data.bytes().len())))
}

/// [`station::judge_command`].
pub fn judge_command(recording: &[u8], bytes: &mut [u8], ledger: &mut [u32]) -> Answer {
    let judged = station::judge_command(recording, bytes, ledger);
    answer_of(judged.map(|commands| {
        (
            commands.finish_tick(),
            commands.finish_step(),
            commands.bytes().len(),
        )
    }))
}

/// A pass with its finish tick, step and count, or an error. A refusal has no tick and no count: `station` stops the program
/// if one crosses.
fn answer_of(judged: Result<(u32, u32, usize), JudgeError>) -> Answer {
    let (number, tick, step, count) = match judged {
        Ok((tick, step, count)) => (COMPLETE, tick, step, count as u32),
        Err(JudgeError::Fault {
            fault,
            tick,
            step,
            count,
        }) => (fault.number(), tick, step, count),
        Err(JudgeError::Refusal { refusal, step }) => (refusal.number(), 0, step, 0),
    };
    Answer {
        number,
        tick,
        step,
        count,
    }
}

/// [`station::write`]. Its answer has no tick and no step: `station` stops the program if one crosses.
pub fn write(bytes: &[u8], destination: &mut [u8]) -> Answer {
    let (number, count) = match station::write(bytes, destination) {
        Ok(written) => (WRITTEN, written.recording().len() as u32),
        Err(refusal) => (refusal.number(), 0),
    };
    Answer {
        number,
        tick: 0,
        step: 0,
        count,
    }
}

/// Every number with its name, in the numbers' order.
pub fn numbers() -> Vec<(u32, &'static str)> {
    let mut all = vec![(WRITTEN, "written"), (COMPLETE, "complete")];
    all.extend(Refusal::ALL.iter().map(|one| (one.number(), one.name())));
    all.extend(
        WriteRefusal::ALL
            .iter()
            .map(|one| (one.number(), one.name())),
    );
    all.extend(Fault::ALL.iter().map(|one| (one.number(), one.name())));
    all.sort();
    all
}

/// The name of one of them.
pub fn name_of(number: u32) -> &'static str {
    let all = numbers();
    let found = all.iter().find(|(value, _)| *value == number);
    found.expect("every number has a name").1
}

/// The bytes whose class as commands differs between the library and `by_steps`.
pub fn differing_classes() -> Vec<u8> {
    let differs = |byte: &u8| CommandClass::of(*byte) != other_class(*byte);
    (0..=u8::MAX).filter(differs).collect()
}

/// The class that `by_steps` gives a byte.
fn other_class(byte: u8) -> CommandClass {
    match by_steps::command_class(byte) {
        by_steps::CommandClass::Listen => CommandClass::Listen,
        by_steps::CommandClass::Unlisten => CommandClass::Unlisten,
        by_steps::CommandClass::Talk => CommandClass::Talk,
        by_steps::CommandClass::Untalk => CommandClass::Untalk,
        by_steps::CommandClass::Secondary => CommandClass::Secondary,
        by_steps::CommandClass::Close => CommandClass::Close,
        by_steps::CommandClass::Open => CommandClass::Open,
        by_steps::CommandClass::Other => CommandClass::Other,
    }
}
