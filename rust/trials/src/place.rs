//! The place that an answer names, held to document 01, "Numbers and what they leave", and to no judge.

use crate::entry::{Entry, ATTENTION};
use by_steps::Answer;
use parties::{steps_of, ticks_of, Step};
use station::{Fault, Refusal, COMPLETE};

const CUT: u32 = Fault::Cut.number();

/// "A verdict carries the deciding tick and the step holding it (20: the finish tick; 22: total ticks and n)." "Every
/// refusal has tick 0 and count 0, its step is the offending one for 6 and 7 and otherwise 0".
pub fn check_place(entry: Entry, answer: Answer, file: &[u8]) -> Result<(), String> {
    if let Ok(refusal) = Refusal::try_from(answer.number) {
        return check_refusal(answer, refusal);
    }
    let steps = steps_of(file);
    let begin = |place: usize| ticks_of(&steps[..place]);
    let step = answer.step as usize;
    let held = step < steps.len() && (begin(step)..begin(step + 1)).contains(&answer.tick);
    let right = match answer.number {
        CUT => (answer.tick, step) == (ticks_of(&steps), steps.len()),
        COMPLETE => held && answer.tick == begin(finish_step(entry, &steps)),
        _ => held,
    };
    if right {
        Ok(())
    } else {
        Err("the tick, or the step that holds it, is wrong".to_string())
    }
}

/// The step that the finish tick begins: the first of the end, where neither CLK nor DATA is pulled any more; of commands the
/// first with ATN released.
fn finish_step(entry: Entry, steps: &[Step]) -> usize {
    match entry {
        Entry::Data => {
            let pulled = steps.iter().rposition(|step| step.lines & 6 != 0);
            pulled.map_or(0, |last| last + 1)
        }
        Entry::Command => {
            let pulled = |step: &&Step| step.lines & ATTENTION != 0;
            steps.iter().take_while(pulled).count()
        }
    }
}

fn check_refusal(answer: Answer, refusal: Refusal) -> Result<(), String> {
    let names_a_step = matches!(refusal, Refusal::ZeroDuration | Refusal::StrayBits);
    if (answer.tick, answer.count) == (0, 0) && (names_a_step || answer.step == 0) {
        Ok(())
    } else {
        Err("a refusal has tick 0 and count 0, and step 0 but for 6 and 7".to_string())
    }
}

#[cfg(test)]
mod tests {
    use super::*;
    use parties::file_of;

    /// Whether this is right of a recording of data and of one of commands, both finished at tick 5.
    fn checked(number: u32, tick: u32, step: u32, count: u32) -> bool {
        let answer = Answer {
            number,
            tick,
            step,
            count,
        };
        let data = [(3, 6), (2, 4), (4, 0), (1, 0)];
        let commands = [(3, 7), (2, 7), (4, 6), (1, 0)];
        let [one, other] =
            [(Entry::Data, data), (Entry::Command, commands)].map(|(entry, lines)| {
                let steps = lines.map(|(duration, lines)| Step::new(duration, lines));
                check_place(entry, answer, &file_of(&steps)).is_ok()
            });
        assert_eq!(one, other);
        one
    }

    #[test]
    fn the_step_holds_the_tick() {
        let places = [0, 0, 0, 1, 1, 2, 2, 2, 2, 3];
        for (tick, held) in places.into_iter().enumerate() {
            for step in 0..6 {
                let tick = tick as u32;
                let out_of_turn = Fault::OutOfTurn.number();
                assert_eq!(checked(out_of_turn, tick, step, 0), step == held);
                let finish = (tick, step) == (5, 2);
                assert_eq!(checked(COMPLETE, tick, step, 1), finish);
            }
        }
    }

    #[test]
    fn a_cut_and_a_refusal_have_their_places() {
        assert!(checked(CUT, 10, 4, 0));
        assert!(!checked(CUT, 9, 3, 0) && !checked(CUT, 10, 3, 0));
        let [stray, total] = [Refusal::StrayBits, Refusal::WrongTotal].map(Refusal::number);
        assert!(checked(stray, 0, 3, 0) && checked(total, 0, 0, 0));
        assert!(!checked(total, 0, 1, 0) && !checked(total, 1, 0, 0));
        assert!(!checked(stray, 0, 3, 1));
    }
}
