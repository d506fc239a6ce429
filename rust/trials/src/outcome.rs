//! What a case came to.

use by_steps::Answer;

/// Both answers, and what was wrong.
pub struct Outcome {
    /// What the library answered.
    pub answer: Answer,
    /// What the other judge or writer answered.
    pub other: Answer,
    /// What was wrong, if anything was.
    pub wrong: Result<(), String>,
}

/// Whether number, tick, step and count are the same.
pub fn same_answer(answer: Answer, other: Answer) -> Result<(), String> {
    same(&[answer], &[other], "the answers differ")
}

/// Whether two slices are equal; if not, these words.
pub fn same<T: PartialEq>(one: &[T], two: &[T], words: &str) -> Result<(), String> {
    if one == two {
        Ok(())
    } else {
        Err(words.to_string())
    }
}
