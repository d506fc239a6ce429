//! Random legal pairs of 1 to 20 bytes: the recording is complete with exactly the string.

use crate::case::{Case, Expected};
use parties::draw::{BRISK, WIDE};
use parties::Random;

/// A legal pair, as its recording.
pub fn draw(random: &mut Random, case: &mut Case) {
    let (count, style) = match random.below(32) {
        0 => (random.between(9, 20), BRISK),
        1..=5 => (random.between(4, 8), BRISK),
        6..=23 => (random.between(1, 3), BRISK),
        24..=30 => (random.between(1, 2), WIDE),
        _ => (random.between(3, 6), WIDE),
    };
    case.draw_transfer(random, count as usize, style);
    put_legal(random, case);
}

/// Puts the case's transfer, which keeps the rules, into a file: its steps split or not, and SRQ set or not.
pub fn put_legal(random: &mut Random, case: &mut Case) {
    case.lay_out();
    if random.one_in(2) {
        let one_in = random.pick(&[2, 8, 32]);
        case.split_steps(random, one_in);
    }
    case.set_service_request(random);
    case.expected = Expected::CompleteByTicks;
    case.put_file();
}
