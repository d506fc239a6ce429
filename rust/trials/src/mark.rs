//! Marked steps: "its last byte is 1". What is due of a mark is told by request #103 and by the answer to the steps before it,
//! and by no judge of marks.

use crate::entry::{Entry, ATTENTION};
use crate::fell::Fell;
use crate::outcome::same;
use by_steps::Answer;
use parties::{file_of, steps_of, ticks_of, Step, MARKED};
use station::{Fault, Refusal, BYTE_ROOM, COMPLETE, LEDGER_ROOM};

const CUT: u32 = Fault::Cut.number();
const OVERRUN: u32 = Fault::Overrun.number();
const STRAY_BITS: u32 = Refusal::StrayBits.number();

/// The CLK bit of a step's lines.
const CLOCK: u8 = 2;
/// The DATA bit.
const DATA: u8 = 4;
/// The bits that are no line's.
const NO_LINE: u8 = 0xF0;

/// The CLK pulls of a byte: one for each set-up, and one after bit 8.
const PULLS: usize = 9;

/// Where the last byte of a step stands in the file.
pub fn last_byte_at(step: usize) -> usize {
    16 + 4 * step + 3
}

/// The first step whose last byte is as said.
pub fn first_step(file: &[u8], is_so: impl Fn(u8) -> bool) -> Option<usize> {
    let steps = file.get(16..)?;
    steps.chunks_exact(4).position(|step| is_so(step[3]))
}

/// "The first tick of a marked step gives verdict 40, before ATN is looked at", and an earlier verdict stands: a recording is
/// answered as the steps before its first marked one are by themselves, but if these are cut or complete, it is 40 where they
/// end. Without a marked step nothing is 40. `left` is what was left of the lent string and ledger. Gives where the mark fell.
pub fn check_mark(
    entry: Entry,
    answer: Answer,
    left: (&[u8], &[u32]),
    file: &[u8],
) -> Result<Option<Fell>, String> {
    if Refusal::try_from(answer.number).is_ok() {
        return Ok(refused(answer, file));
    }
    match (first_step(file, |last| last == MARKED), answer.number) {
        (None, OVERRUN) => Err("no step is marked, and it is 40".to_string()),
        (None, _) => Ok(None),
        (Some(place), _) => check_marked(entry, answer, left, &steps_of(file)[..place]).map(Some),
    }
}

/// The same for a marked recording, of which these are the steps before its first mark.
fn check_marked(
    entry: Entry,
    answer: Answer,
    left: (&[u8], &[u32]),
    before: &[Step],
) -> Result<Fell, String> {
    let (mut bytes, mut ledger) = ([0; BYTE_ROOM], [0; LEDGER_ROOM]);
    let alone = entry.judge()(&file_of(before), &mut bytes, &mut ledger);
    let count = alone.count as usize;
    same(
        left.0,
        &bytes[..count],
        "the string must be that of the steps before the mark",
    )?;
    same(
        left.1,
        &ledger[..2 * count],
        "the ledger must be that of the steps before the mark",
    )?;
    if alone.number != CUT && alone.number != COMPLETE {
        same(&[answer], &[alone], "a verdict before the mark must stand")?;
        return Ok(Fell::AfterAVerdict);
    }
    let due = Answer {
        number: OVERRUN,
        tick: ticks_of(before),
        step: before.len() as u32,
        count: alone.count,
    };
    same(&[answer], &[due], "it must be 40 at the mark")?;
    let (fell, handed_over) = fell(entry, alone.number == COMPLETE, before);
    if handed_over != count {
        return Err(format!("{handed_over} bytes must have been handed over"));
    }
    Ok(fell)
}

/// A refusal for nothing but a last byte of 2 or 255.
fn refused(answer: Answer, file: &[u8]) -> Option<Fell> {
    let step = answer.step as usize;
    if answer.number != STRAY_BITS || file[last_byte_at(step) - 1] & NO_LINE != 0 {
        return None;
    }
    match file[last_byte_at(step)] {
        2 => Some(Fell::LastByte2),
        255 => Some(Fell::LastByte255),
        _ => None,
    }
}

/// Where a transfer that is right so far has come to after these steps, and how many bytes have been handed over: told from
/// the lines, by counting CLK pulls. There is one from tick 0 on, and nine for each byte.
fn fell(entry: Entry, is_complete: bool, before: &[Step]) -> (Fell, usize) {
    let bound = match entry {
        Entry::Data => before,
        Entry::Command => until_the_finish(before),
    };
    let Some(latest) = before.last() else {
        return (Fell::AtTick0, 0);
    };
    let pulls = clock_pulls(bound).saturating_sub(1);
    let (whole, inside) = (pulls / PULLS, pulls % PULLS);
    if is_complete {
        return match entry {
            Entry::Data => (Fell::AfterTheEnd, whole),
            Entry::Command => (Fell::AfterTheFinish, whole),
        };
    }
    let (clock, data) = (latest.lines & CLOCK != 0, latest.lines & DATA != 0);
    match (inside, clock) {
        (1.., _) => (Fell::InTheBits, whole),
        (0, false) => (Fell::BetweenBytes, whole),
        (0, true) if whole == 0 => (Fell::AtTheStart, 0),
        (0, true) if data => (Fell::WithAByteWaiting, whole - 1),
        (0, true) => (Fell::InAnOpenHandover, whole - 1),
    }
}

/// The steps of commands before their finish: CLK is free after it.
fn until_the_finish(steps: &[Step]) -> &[Step] {
    let pulled = |step: &&Step| step.lines & ATTENTION != 0;
    &steps[..steps.iter().take_while(pulled).count()]
}

/// How often CLK is pulled.
fn clock_pulls(steps: &[Step]) -> usize {
    let pulled: Vec<bool> = steps.iter().map(|step| step.lines & CLOCK != 0).collect();
    let first = usize::from(pulled.first() == Some(&true));
    first + pulled.windows(2).filter(|two| !two[0] && two[1]).count()
}

#[cfg(test)]
mod tests {
    use super::*;

    const S1: &[u8] = include_bytes!("../../../samples/s1-overrun-after-the-end.rec");
    const ADDRESSED: &[u8] =
        include_bytes!("../../../samples/commands/overrun-after-the-finish.rec");

    /// The sample without a mark.
    fn unmarked(sample: &[u8]) -> Vec<Step> {
        let each = steps_of(sample).into_iter();
        each.map(|step| Step::new(step.duration, step.lines))
            .collect()
    }

    /// The sample with a mark on this step alone.
    fn marked(sample: &[u8], place: usize) -> Vec<u8> {
        let mut steps = unmarked(sample);
        steps[place] = steps[place].marked();
        file_of(&steps)
    }

    /// What `check_mark` says of an answer, with as many of the sample's bytes left as it counts.
    fn checked(entry: Entry, file: &[u8], answer: Answer) -> Result<Option<Fell>, String> {
        let (string, ledger): (&[u8], &[u32]) = match entry {
            Entry::Data => (&[0x41], &[1630, 1660]),
            Entry::Command => (&[0x28, 0x6F], &[1350, 1380, 2730, 2760]),
        };
        let count = answer.count as usize;
        check_mark(
            entry,
            answer,
            (&string[..count], &ledger[..2 * count]),
            file,
        )
    }

    /// These steps of a sample, marked in turn, fall where it is said; any other answer is found.
    fn falls(entry: Entry, sample: &[u8], due: &[(usize, Fell, u32)]) {
        for &(place, fell, count) in due {
            let file = marked(sample, place);
            let answer = Answer {
                number: OVERRUN,
                tick: ticks_of(&steps_of(sample)[..place]),
                step: place as u32,
                count,
            };
            assert_eq!(checked(entry, &file, answer), Ok(Some(fell)), "{place}");
            for number in [COMPLETE, CUT, Fault::Attention.number()] {
                assert!(checked(entry, &file, Answer { number, ..answer }).is_err());
            }
            let (tick, step) = (answer.tick + 1, answer.step + 1);
            assert!(checked(entry, &file, Answer { tick, ..answer }).is_err());
            assert!(checked(entry, &file, Answer { step, ..answer }).is_err());
            let count = if count > 0 { 0 } else { 1 };
            assert!(checked(entry, &file, Answer { count, ..answer }).is_err());
            if place > 0 {
                assert!(checked(entry, &marked(sample, place - 1), answer).is_err());
            }
            assert!(checked(entry, &file_of(&unmarked(sample)), answer).is_err());
        }
    }

    #[test]
    fn a_mark_on_each_step_of_s1_is_where_it_fell() {
        let mut due = vec![(0, Fell::AtTick0, 0), (1, Fell::AtTheStart, 0)];
        due.extend((2..=5).map(|place| (place, Fell::BetweenBytes, 0)));
        due.extend((6..=21).map(|place| (place, Fell::InTheBits, 0)));
        due.push((22, Fell::InAnOpenHandover, 0));
        due.push((23, Fell::WithAByteWaiting, 0));
        due.push((24, Fell::BetweenBytes, 1));
        due.push((25, Fell::AfterTheEnd, 1));
        falls(Entry::Data, S1, &due);
    }

    #[test]
    fn a_mark_on_commands_is_where_it_fell() {
        let due = [
            (0, Fell::AtTick0, 0),
            (1, Fell::AtTheStart, 0),
            (18, Fell::InTheBits, 0),
            (20, Fell::InAnOpenHandover, 0),
            (21, Fell::WithAByteWaiting, 0),
            (22, Fell::BetweenBytes, 1),
            (24, Fell::InTheBits, 1),
            (40, Fell::InAnOpenHandover, 1),
            (41, Fell::WithAByteWaiting, 1),
            (42, Fell::AfterTheFinish, 2),
        ];
        falls(Entry::Command, ADDRESSED, &due);
    }
}
