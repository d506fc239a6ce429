//! Strings to write, with destinations about the length that they take.

use crate::case::Case;
use parties::Random;
use station::{written_length, MOST_BYTES};

/// A string of 0 to 799 bytes, mostly short, or of 800 or more; its destination is none, one below, at, one above, or
/// longer.
pub fn draw(random: &mut Random, case: &mut Case) {
    let most = MOST_BYTES as u32;
    let length = match random.below(64) {
        0 => random.between(100, most),
        1 => random.between(most - 1, most),
        2 => random.between(most + 1, most + 2),
        3 => random.between(most + 1, 3 * most),
        4..=9 => 0,
        10..=20 => random.between(6, 40),
        _ => random.between(1, 5),
    };
    let length = length as usize;
    case.string
        .extend(std::iter::repeat_with(|| random.byte()).take(length));
    // What a string takes that is too long to be written is more than this trial lends.
    let needed = written_length(length.min(MOST_BYTES));
    case.destination = match random.below(16) {
        0 => 0,
        1 => needed - 1,
        2 => random.place(needed),
        3..=8 => needed,
        9..=12 => needed + 1,
        _ => needed + random.place(2000),
    };
}
