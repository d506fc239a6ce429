//! Draws legal transfers: random choices within each rule, also at the ends of each window.

mod finish;

use crate::limits::{self, Window, NO_LIMIT};
use crate::{Bit, Byte, Ending, Random, Transfer};

pub use finish::MOST_STRETCHES;

/// How spans are chosen within their windows.
#[derive(Clone, Copy, Debug)]
pub struct Style {
    /// Once in so many times a span lies at an end of its window, or one tick from it.
    pub ends_one_in: u32,
    /// Otherwise it is at most this much longer than the window's least.
    pub reach: u32,
    /// Once in so many bits DATA moves inside the set-up.
    pub moves_one_in: u32,
    /// Whether every byte ends with a one and a carried handover, which takes the fewest steps.
    pub always_carried: bool,
}

/// Short spans: little time is spent on a recording.
pub const BRISK: Style = Style {
    ends_one_in: 40,
    reach: 8,
    moves_one_in: 6,
    always_carried: false,
};

/// Spans from the whole of each window.
pub const WIDE: Style = Style {
    ends_one_in: 4,
    reach: 1000,
    moves_one_in: 3,
    always_carried: false,
};

/// As few steps as a byte can have, nineteen, and few ticks.
pub const DENSE: Style = Style {
    ends_one_in: 400,
    reach: 4,
    moves_one_in: NO_LIMIT,
    always_carried: true,
};

/// Draws a plain transfer of `count` bytes. It keeps every rule.
#[must_use]
pub fn transfer(random: &mut Random, count: usize, style: Style) -> Transfer {
    let first_take = span(random, limits::FIRST_TAKE, style);
    // The fields are drawn in this order.
    Transfer {
        first_take,
        bytes: bytes(random, count, limits::END_MARK, style),
        acknowledgement: span(random, limits::ACKNOWLEDGEMENT, style),
        after_acknowledgement: span(random, limits::AFTER_ACKNOWLEDGEMENT, style),
        last_hold: span(random, limits::LATER_HOLD, style),
        last_ready_to_send: span(random, limits::READY_TO_SEND, style),
        silence: span(random, limits::SILENCE, style),
        ending: Ending::Plain,
    }
}

/// Draws a command of `count` bytes. It keeps every rule. After its finish there are up to [`MOST_STRETCHES`] stretches.
#[must_use]
pub fn command(random: &mut Random, count: usize, style: Style) -> Transfer {
    let first_take = span(random, limits::FIRST_TAKE, style);
    let mut bytes = bytes(random, count, limits::READY_FOR_DATA, style);
    if let Some(last) = bytes.last_mut() {
        finish::hurry_last_handover(random, last);
    }
    Transfer {
        first_take,
        bytes,
        last_hold: finish::hold(random, style),
        ending: Ending::Command(finish::stretches(random, style)),
        ..Transfer::default()
    }
}

/// The bytes. The last one is ready for data for as long as `last` says.
fn bytes(random: &mut Random, count: usize, last: Window, style: Style) -> Vec<Byte> {
    let mut bytes = Vec::with_capacity(count);
    for place in 0..count {
        let hold = if place == 0 {
            limits::FIRST_HOLD
        } else {
            limits::LATER_HOLD
        };
        let ready_for_data = if place + 1 == count {
            last
        } else {
            limits::READY_FOR_DATA
        };
        bytes.push(byte(random, hold, ready_for_data, style));
    }
    bytes
}

/// A number of ticks within a window. Where there is no limit, an end is once in a while longer than any step.
fn span(random: &mut Random, window: Window, style: Style) -> u32 {
    let most = match window.most {
        NO_LIMIT if random.one_in(20_000) => window.least + 70_000,
        NO_LIMIT => window.least + 300,
        most => most,
    };
    if random.one_in(style.ends_one_in) {
        return random.pick(&[window.least, window.least + 1, most - 1, most]);
    }
    random.between(
        window.least,
        most.min(window.least.saturating_add(style.reach)),
    )
}

/// A byte, with a handover of either kind.
fn byte(random: &mut Random, hold: Window, ready_for_data: Window, style: Style) -> Byte {
    let value = value(random, style);
    let mut byte = Byte {
        value,
        hold: span(random, hold, style),
        ready_to_send: span(random, limits::READY_TO_SEND, style),
        ready_for_data: span(random, ready_for_data, style),
        bits: std::array::from_fn(|_| bit(random, style)),
        keep: 0,
        take: span(random, limits::TAKE, style),
    };
    if value >= 0x80 {
        handover_after_one(random, style, &mut byte);
    }
    byte
}

/// A byte's value, with zeros and ones in a row more often than chance would have them.
fn value(random: &mut Random, style: Style) -> u8 {
    let value = match random.below(8) {
        0 => random.pick(&[0x00, 0xFF, 0x7F, 0x80, 0x55, 0xAA, 0x01, 0xFE]),
        _ => random.byte(),
    };
    if style.always_carried {
        value | 0x80
    } else {
        value
    }
}

/// One bit's spans. Moves of DATA lie inside the set-up, at its second tick or later.
fn bit(random: &mut Random, style: Style) -> Bit {
    let set_up = span(random, limits::SET_UP, style);
    let valid = span(random, limits::VALID, style);
    let mut moves = [0; 3];
    if set_up > 1 && random.one_in(style.moves_one_in) {
        let count = random.pick(&[1, 1, 1, 2, 3]);
        for offset in &mut moves[..count] {
            *offset = random.between(1, set_up - 1);
        }
    }
    Bit {
        set_up,
        valid,
        moves,
    }
}

/// After a one the sender may go on pulling. In half of the bytes the receiver takes over inside, without a break.
fn handover_after_one(random: &mut Random, style: Style, byte: &mut Byte) {
    if style.always_carried || random.one_in(2) {
        byte.keep = random.between(1, limits::KEEP.most);
        byte.take = random.between(limits::TAKE.least, byte.keep);
    } else {
        byte.keep = span(random, limits::KEEP, style);
    }
}
