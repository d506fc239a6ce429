//! One recording judged by the case's entry, through the border and by the other judge.

use crate::case::{Case, Expected};
use crate::entry::Entry;
use crate::fell::Fell;
use crate::judge_memory::{JudgeMemory, Places};
use crate::mark::check_mark;
use crate::outcome::{same, same_answer, Outcome};
use crate::place::check_place;
use by_steps::Answer;
use parties::{check_shown_command, check_shown_pair, Random};
use station::{Fault, Refusal, BYTE_ROOM, COMPLETE, LEDGER_ROOM};
use trials::name_of;

/// The trial; its memory is used again for each case.
pub struct JudgeTrial {
    memory: JudgeMemory,
    /// How many shown pairs were held to the parties' rules.
    pub shown_pairs: u64,
    /// Where the first mark of the latest recording fell.
    pub fell: Option<Fell>,
}

impl JudgeTrial {
    /// The trial.
    pub fn new() -> JudgeTrial {
        JudgeTrial {
            memory: JudgeMemory::new(),
            shown_pairs: 0,
            fell: None,
        }
    }

    /// Judges the case's recording twice and compares all there is to compare.
    pub fn run(&mut self, random: &mut Random, case: &Case) -> Outcome {
        self.fell = None;
        let memory = &mut self.memory;
        let places = memory.lend(random, &case.file);
        let answer = case.entry.judge()(
            memory.recording.part(places.recording),
            memory.bytes.part_mut(places.bytes),
            memory.ledger.part_mut(places.ledger),
        );
        let other = case.entry.other_judge()(
            &case.file,
            memory.other_bytes.part_mut(places.bytes),
            memory.other_ledger.part_mut(places.ledger),
        );
        let wrong = same_answer(answer, other)
            .and_then(|()| self.memory.check(answer.count as usize, places, &case.file))
            .and_then(|()| check_entry(answer, case))
            .and_then(|()| check_place(case.entry, answer, &case.file))
            .and_then(|()| self.check_mark(answer, places, case))
            .and_then(|()| self.check_shown(answer, places, case))
            .and_then(|()| self.check_expected(answer, places, case));
        Outcome {
            answer,
            other,
            wrong,
        }
    }

    /// Request #103 on every recording.
    fn check_mark(&mut self, answer: Answer, places: Places, case: &Case) -> Result<(), String> {
        let left = self.memory.left(answer, places);
        self.fell = check_mark(case.entry, answer, left, &case.file)?;
        Ok(())
    }

    /// Demand 3 on every recording judged complete.
    fn check_shown(&mut self, answer: Answer, places: Places, case: &Case) -> Result<(), String> {
        if answer.number != COMPLETE {
            return Ok(());
        }
        self.shown_pairs += 1;
        let (string, ledger) = self.memory.left(answer, places);
        let check = match case.entry {
            Entry::Data => check_shown_pair,
            Entry::Command => check_shown_command,
        };
        let checked = check(&case.file, string, ledger);
        checked.map_err(|error| format!("the shown pair: {error}"))
    }

    /// What the class said must come of it.
    fn check_expected(&self, answer: Answer, places: Places, case: &Case) -> Result<(), String> {
        let number = match case.expected {
            Expected::Nothing => return Ok(()),
            Expected::Refused { refusal, step } if step == answer.step => refusal.number(),
            Expected::Refused { step, .. } => {
                return Err(format!("it must be refused for step {step}"))
            }
            _ if !places.enough => Refusal::ShortBuffers.number(),
            Expected::Empty => Fault::EmptyStream.number(),
            Expected::Fault { fault, tick } if tick == answer.tick => fault.number(),
            Expected::Fault { tick, .. } => {
                return Err(format!("it must be decided at tick {tick}"))
            }
            Expected::Complete | Expected::CompleteByTicks => COMPLETE,
        };
        if answer.number != number {
            return Err(format!("it must be {}", name_of(number)));
        }
        if number != COMPLETE {
            return Ok(());
        }
        let (string, ledger) = self.memory.left(answer, places);
        same(
            string,
            &case.string,
            "it must be complete with exactly its string",
        )?;
        if case.expected == Expected::CompleteByTicks {
            check_earliest(ledger, &case.ticks)?;
        }
        Ok(())
    }
}

/// The number is one that the entry may give, and no recording passes both entries.
fn check_entry(answer: Answer, case: &Case) -> Result<(), String> {
    if !case.entry.gives(answer.number) {
        return Err("the entry has no such number".to_string());
    }
    if answer.number != COMPLETE {
        return Ok(());
    }
    let judge = case.entry.other().judge();
    let again = judge(&case.file, &mut [0; BYTE_ROOM], &mut [0; LEDGER_ROOM]);
    if again.number == COMPLETE {
        return Err("it passes both entries".to_string());
    }
    Ok(())
}

/// "every other pair that gives the recording has, at each of the two places of each byte, that tick or a later one".
fn check_earliest(ledger: &[u32], own: &[u32]) -> Result<(), String> {
    if ledger.len() != own.len() {
        return Err("the ledger must have two ticks for each byte".to_string());
    }
    match ledger.iter().zip(own).find(|(shown, own)| shown > own) {
        None => Ok(()),
        Some((shown, own)) => Err(format!(
            "the ledger has {shown}, later than the pair's own {own}"
        )),
    }
}
