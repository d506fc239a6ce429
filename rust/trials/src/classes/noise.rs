//! Plain noise, from random bytes to steps that look like a transfer.

use crate::case::Case;
use parties::draw::BRISK;
use parties::{Random, Step};

/// Durations about which something changes.
const LIKELY: [u16; 30] = [
    1, 2, 19, 20, 21, 40, 59, 60, 61, 70, 99, 100, 101, 149, 150, 151, 199, 200, 201, 220, 255,
    256, 257, 289, 290, 291, 511, 512, 999, 1000,
];

/// One of four kinds of noise.
pub fn draw(random: &mut Random, case: &mut Case) {
    match random.below(8) {
        0 => random_bytes(random, &mut case.file),
        1 => random_header(random, case),
        2 => {
            let count = random.place(60);
            likely_steps(random, case, count);
            case.put_file();
        }
        _ => {
            begun_transfer(random, case);
            case.put_file();
        }
    }
}

/// Any bytes.
fn random_bytes(random: &mut Random, file: &mut Vec<u8>) {
    let length = if random.one_in(2) {
        random.place(24)
    } else {
        random.place(300)
    };
    file.extend(std::iter::repeat_with(|| random.byte()).take(length));
    // So that the later refusals have their turn.
    if length >= 2 && random.one_in(2) {
        file[..2].copy_from_slice(&[1, 0]);
    }
}

/// A header whose fields are each right or not, over steps that are each right or not.
fn random_header(random: &mut Random, case: &mut Case) {
    let count = random.place(20);
    likely_steps(random, case, count);
    case.put_file();
    for (place, length) in [(0, 2), (2, 2), (4, 4), (8, 4), (12, 4)] {
        if random.one_in(6) {
            case.file[place..place + length].fill_with(|| random.byte());
        }
    }
    for place in 16..case.file.len() {
        if random.one_in(100) {
            case.file[place] = random.pick(&[0, 1, 16, 255]);
        }
    }
}

/// Steps of likely lines and durations, after those that there are. ATN is mostly as the entry has it; where it is not, both
/// CLK and DATA are often pulled, as at a finish.
fn likely_steps(random: &mut Random, case: &mut Case, count: usize) {
    for _ in 0..count {
        let lines = match random.below(32) {
            0 => random.below(16) as u8,
            1 => 6 | case.entry.other().attention(),
            _ => random.pick(&[0, 2, 4, 6]) | case.entry.attention(),
        };
        let duration = match random.below(4) {
            0 => random.between(1, 300) as u16,
            _ => random.pick(&LIKELY),
        };
        case.steps.push(Step::new(duration, lines));
    }
}

/// A legal transfer up to some step, and noise from there on.
fn begun_transfer(random: &mut Random, case: &mut Case) {
    let count = random.between(1, 2) as usize;
    case.draw_transfer(random, count, BRISK);
    case.lay_out();
    let kept = random.place(case.steps.len() + 1);
    case.steps.truncate(kept);
    let count = random.between(1, 12) as usize;
    likely_steps(random, case, count);
}
