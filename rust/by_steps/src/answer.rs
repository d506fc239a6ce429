//! What the judge and the writer answer.

/// "An answer is a number, a tick, a step and a count."
#[derive(Clone, Copy, Debug, PartialEq, Eq)]
pub struct Answer {
    pub number: u32,
    pub tick: u32,
    pub step: u32,
    pub count: u32,
}

impl Answer {
    /// "Every refusal has tick 0 and count 0, its step is the offending one for
    /// 6 and 7 and otherwise 0."
    pub(crate) const fn refusal(number: u32, step: u32) -> Self {
        Answer {
            number,
            tick: 0,
            step,
            count: 0,
        }
    }
}
