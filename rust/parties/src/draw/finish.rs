//! What is drawn of a command alone: where its finish comes, and what the lines do after it.

use super::{span, Style};
use crate::limits::{self, NO_LIMIT};
use crate::{Byte, Random, Stretch};

/// The most stretches that are drawn after a finish.
pub const MOST_STRETCHES: u32 = 12;

/// The last handover, once in four times: if bit 8 is one it is carried, and the receiver takes at offset 1. No carried
/// handover may have an earlier take, so with the least hold the finish comes as soon after it as it may.
pub(super) fn hurry_last_handover(random: &mut Random, byte: &mut Byte) {
    if byte.value >= 0x80 && random.one_in(4) {
        byte.keep = random.between(1, limits::KEEP.most);
        byte.take = limits::TAKE.least;
    }
}

/// From the latest take to the finish: often the least, and once in a while longer than any handover may be open, or than
/// any step.
pub(super) fn hold(random: &mut Random, style: Style) -> u32 {
    let least = limits::LATER_HOLD.least;
    match random.below(16) {
        0..=3 => least,
        4 if random.one_in(50) => least + 70_000,
        4 => random.between(limits::TAKE.most + 1, 3 * limits::TAKE.most),
        _ => span(random, limits::LATER_HOLD, style),
    }
}

/// What comes after the finish: nothing, both hold on, both release, or anything at all.
pub(super) fn stretches(random: &mut Random, style: Style) -> Vec<Stretch> {
    match random.below(5) {
        0 => Vec::new(),
        1 => vec![held(random, style)],
        2 => released(random, style),
        _ => {
            let count = random.between(1, MOST_STRETCHES);
            (0..count).map(|_| noise(random, style)).collect()
        }
    }
}

/// How long a stretch is: any number of ticks, for nothing binds.
fn ticks(random: &mut Random, style: Style) -> u32 {
    let window = limits::Window {
        least: 1,
        most: NO_LIMIT,
    };
    span(random, window, style)
}

/// Both hold on.
fn held(random: &mut Random, style: Style) -> Stretch {
    Stretch {
        ticks: ticks(random, style),
        clock: true,
        receiver_data: true,
        ..Stretch::default()
    }
}

/// Both release: either one first, or both in the tick after the finish.
fn released(random: &mut Random, style: Style) -> Vec<Stretch> {
    let quiet = Stretch {
        ticks: ticks(random, style),
        ..Stretch::default()
    };
    let mut between = held(random, style);
    match random.below(3) {
        0 => return vec![quiet],
        1 => between.clock = false,
        _ => between.receiver_data = false,
    }
    vec![between, quiet]
}

/// Anybody pulls anything but ATN.
fn noise(random: &mut Random, style: Style) -> Stretch {
    Stretch {
        ticks: ticks(random, style),
        clock: random.one_in(2),
        sender_data: random.one_in(2),
        receiver_data: random.one_in(2),
        service_request: random.one_in(2),
    }
}
