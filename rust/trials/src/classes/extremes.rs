//! Extremes: no steps, as many as there can be, and the longest durations.

use crate::case::Case;
use crate::classes::legal;
use parties::{Random, Step, LONGEST, MOST_STEPS};

/// One of the extremes.
pub fn draw(random: &mut Random, case: &mut Case) {
    match random.below(8) {
        0 => {}
        1 => fill_up(random, case, MOST_STEPS, 1),
        2 => fill_up(random, case, MOST_STEPS + 1, 1),
        3 => {
            let duration = random.between(1, 40) as u16;
            fill_up(random, case, MOST_STEPS, duration);
        }
        4 => long_waits(random, case),
        5 => {
            long_waits(random, case);
            let lines = case.steps.last().map_or(0, |step| step.lines);
            pad(case, MOST_STEPS, 1, lines);
        }
        6 => split_up(random, case),
        _ => longest_steps(random, case),
    }
    case.put_file();
}

/// Steps until there are `count`.
fn pad(case: &mut Case, count: usize, duration: u16, lines: u8) {
    case.steps
        .resize(count.max(case.steps.len()), Step::new(duration, lines));
}

/// The beginning of a transfer that waits where there is no limit, over that many steps.
fn fill_up(random: &mut Random, case: &mut Case, count: usize, duration: u16) {
    let attention = case.entry.attention();
    let lines = attention | random.pick(&[6, 4]);
    case.steps.push(Step::new(1, attention | 6));
    pad(case, count, duration, lines);
}

/// A legal transfer whose waits without a limit are longer than a step: hold, ready to send, the last hold, and the silence at
/// the end.
fn long_waits(random: &mut Random, case: &mut Case) {
    legal::draw(random, case);
    let long = || u32::from(LONGEST);
    for byte in &mut case.transfer.bytes {
        match random.below(3) {
            0 => byte.hold += long(),
            1 => byte.ready_to_send += long(),
            _ => {}
        }
    }
    case.transfer.last_hold += random.pick(&[0, 0, long()]);
    case.transfer.silence += random.pick(&[0, long(), 2 * long()]);
    case.lay_out();
}

/// A legal transfer split into steps of a tick or two, as many as there can be.
fn split_up(random: &mut Random, case: &mut Case) {
    legal::draw(random, case);
    case.split_steps(random, 1);
}

/// Steps of the longest duration, of likely lines.
fn longest_steps(random: &mut Random, case: &mut Case) {
    for _ in 0..random.between(1, 40) {
        let lines = case.entry.attention() | random.pick(&[6, 6, 6, 4, 4, 0, 2]);
        case.steps.push(Step::new(LONGEST, lines));
    }
}
