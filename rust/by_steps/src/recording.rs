//! "Recording layout", and the refusals 1 to 9 that guard it.

use crate::numbers::{
    DURATION_ZERO, LENGTH_WRONG, OTHER_BITS, OTHER_OFFSET, OTHER_VERSION, TOO_LITTLE_LENT,
    TOO_MANY_STEPS, TOTAL_TICKS_WRONG, UNDER_SIXTEEN_BYTES,
};
pub use crate::step::{Lines, Step};
use crate::step::{StepBytes, STEP_BYTES};
use crate::Answer;

pub(crate) const VERSION: u16 = 1;
pub(crate) const HEADER_BYTES: usize = 16;
const MOST_STEPS: u16 = 16_000;
const LEAST_BYTE_PLACES: usize = 1_000;
const LEAST_LEDGER_PLACES: usize = 2_000;

/// A recording that no refusal is due for.
#[derive(Clone, Copy)]
pub struct Recording<'a> {
    steps: &'a [StepBytes],
    attention: bool,
    marked: bool,
}

impl<'a> Recording<'a> {
    pub fn steps(&self) -> impl Iterator<Item = Step> + 'a {
        self.steps.iter().copied().map(Step::of)
    }

    /// The steps before the first that is marked or whose ATN isn't as `pulled`
    /// says, and those from it on. The form check has met every step already, so
    /// a first mark or pull is looked for only where there is one.
    pub(crate) fn split_at_stop(&self, pulled: bool) -> (&'a [StepBytes], &'a [StepBytes]) {
        if !pulled && !self.attention && !self.marked {
            return (self.steps, &[]);
        }
        let steps = self.steps();
        let before = steps.take_while(|step| !step.marked() && step.attention_pulled() == pulled);
        self.steps.split_at(before.count())
    }
}

/// Tests 1 to 9 in their order.
pub fn check(
    file: &[u8],
    byte_places: usize,
    ledger_places: usize,
) -> Result<Recording<'_>, Answer> {
    let (steps, total_ticks) = check_header(file)?;
    let survey = Survey::of(steps);
    if survey.fault {
        first_fault(steps)?;
    }
    if survey.ticks != total_ticks {
        return Err(Answer::refusal(TOTAL_TICKS_WRONG, 0));
    }
    if byte_places < LEAST_BYTE_PLACES || ledger_places < LEAST_LEDGER_PLACES {
        return Err(Answer::refusal(TOO_LITTLE_LENT, 0));
    }
    Ok(Recording {
        steps,
        attention: survey.attention,
        marked: survey.marked,
    })
}

/// Tests 1 to 5; hands back the steps and the total ticks the header claims.
fn check_header(file: &[u8]) -> Result<(&[StepBytes], u32), Answer> {
    let Some((header, body)) = file.split_first_chunk::<HEADER_BYTES>() else {
        return Err(Answer::refusal(UNDER_SIXTEEN_BYTES, 0));
    };
    let [v0, v1, n0, n1, o0, o1, o2, o3, t0, t1, t2, t3, l0, l1, l2, l3] = *header;
    let step_count = u16::from_le_bytes([n0, n1]);
    let length = HEADER_BYTES + STEP_BYTES * usize::from(step_count);
    let number = if u16::from_le_bytes([v0, v1]) != VERSION {
        OTHER_VERSION
    } else if step_count > MOST_STEPS {
        TOO_MANY_STEPS
    } else if u32::from_le_bytes([o0, o1, o2, o3]) != HEADER_BYTES as u32 {
        OTHER_OFFSET
    } else if u32::from_le_bytes([l0, l1, l2, l3]) != length as u32 || file.len() != length {
        LENGTH_WRONG
    } else {
        let (steps, _) = body.as_chunks();
        return Ok((steps, u32::from_le_bytes([t0, t1, t2, t3])));
    };
    Err(Answer::refusal(number, 0))
}

/// What one pass without branches learns of all steps.
struct Survey {
    ticks: u32,
    fault: bool,
    attention: bool,
    marked: bool,
}

impl Survey {
    /// The sum stays in 32 bits: 16,000 times 65,535 is below two to the 30th.
    fn of(steps: &[StepBytes]) -> Self {
        let (mut ticks, mut zero, mut met) = (0, false, Step::of([0; STEP_BYTES]));
        for step in steps.iter().copied().map(Step::of) {
            ticks += step.duration();
            zero |= step.duration() == 0;
            met = met | step;
        }
        Survey {
            ticks,
            fault: zero || met.has_other_bits(),
            attention: met.attention_pulled(),
            marked: met.marked(),
        }
    }
}

/// "Steps are tested first to last, 6 before 7 in one step."
#[cold]
fn first_fault(steps: &[StepBytes]) -> Result<(), Answer> {
    for (number, &bytes) in (0..).zip(steps) {
        let step = Step::of(bytes);
        if step.duration() == 0 {
            return Err(Answer::refusal(DURATION_ZERO, number));
        }
        if step.has_other_bits() {
            return Err(Answer::refusal(OTHER_BITS, number));
        }
    }
    Ok(())
}
