//! Every limit at one below, at and one above, in a first and in a later byte.

use crate::case::Case;
use crate::entry::Entry;
use parties::draw::BRISK;
use parties::{Ending, Random, Step, Transfer};

/// A legal transfer with one span set to a limit or a tick or two beside it, and sometimes a tick of other lines nearby.
pub fn draw(random: &mut Random, case: &mut Case) {
    let count = random.between(1, 3);
    case.draw_transfer(random, count as usize, BRISK);
    let place = random.place(count as usize);
    match random.below(8) {
        0 => at_the_start_and_the_end(random, &mut case.transfer),
        1 => before_the_bits(random, &mut case.transfer, place),
        2 | 3 if case.entry == Entry::Command => at_the_finish(random, &mut case.transfer),
        2 => at_the_end_mark(random, &mut case.transfer),
        3 => time_out(random, &mut case.transfer),
        4 | 5 => in_a_bit(random, &mut case.transfer, place),
        _ => at_the_handover(random, &mut case.transfer, place),
    }
    case.lay_out();
    match random.below(12) {
        0 => {
            let lines = random.below(8) as u8;
            case.steps.push(Step::new(1, lines));
        }
        1..=4 => {
            let tick = case.tick_by_a_change(random);
            let mask = random.pick(&[1, 2, 4, 4, 6]);
            case.turn_over(tick, tick + 1, mask);
        }
        _ => case.expect_by_the_rules(),
    }
    if random.one_in(8) {
        case.split_steps(random, 4);
    }
    case.put_file();
}

/// The first take, the last hold, and of data the last letting go, and how far the recording goes on after it.
fn at_the_start_and_the_end(random: &mut Random, transfer: &mut Transfer) {
    let spans = if transfer.ending == Ending::Plain {
        4
    } else {
        2
    };
    match random.below(spans) {
        0 => transfer.first_take = random.pick(&[0, 1, 254, 255, 256, 257, 258]),
        1 => transfer.last_hold = random.pick(&[0, 1, 98, 99, 100, 101]),
        2 => transfer.last_ready_to_send = random.pick(&[0, 1, 2]),
        _ => transfer.silence = random.pick(&[0, 1, 2]),
    }
}

/// The hold, ready to send and ready for data; 1 in the first byte and 100 later are the hold's limits.
fn before_the_bits(random: &mut Random, transfer: &mut Transfer, place: usize) {
    let byte = &mut transfer.bytes[place];
    match random.below(4) {
        0 => byte.hold = random.pick(&[0, 1, 2, 98, 99, 100, 101]),
        1 => byte.ready_to_send = random.pick(&[0, 1, 2]),
        _ => byte.ready_for_data = random.pick(&[0, 1, 2, 198, 199, 200, 201, 289, 290, 291]),
    }
}

/// The end mark and its acknowledgement.
fn at_the_end_mark(random: &mut Random, transfer: &mut Transfer) {
    let last = transfer.bytes.len() - 1;
    match random.below(3) {
        0 => {
            transfer.bytes[last].ready_for_data =
                random.pick(&[198, 199, 200, 201, 288, 289, 290, 291, 292])
        }
        1 => {
            transfer.acknowledgement = random.pick(&[0, 1, 58, 59, 60, 61, 148, 149, 150, 151, 152])
        }
        _ => transfer.after_acknowledgement = random.pick(&[0, 1, 2, 58, 59, 60, 61, 62]),
    }
}

/// The finish of commands: after the last take, and in a carried handover, whose take is at offset 1 at the earliest, after
/// offset 0.
fn at_the_finish(random: &mut Random, transfer: &mut Transfer) {
    let last = transfer.bytes.len() - 1;
    let byte = &mut transfer.bytes[last];
    if random.one_in(2) {
        byte.value |= 0x80;
        byte.keep = random.between(1, 100);
        byte.take = 1;
    }
    transfer.last_hold = random.pick(&[0, 1, 98, 99, 100, 101]);
}

/// CLK is pulled again around 512 ticks after ready for data began.
fn time_out(random: &mut Random, transfer: &mut Transfer) {
    let last = transfer.bytes[transfer.bytes.len() - 1];
    let gone = last.ready_for_data + transfer.acknowledgement;
    transfer.after_acknowledgement = random.between(510, 515) - gone;
}

/// Set-up, valid time, and a move of DATA at the end of the set-up or in the valid time.
fn in_a_bit(random: &mut Random, transfer: &mut Transfer, place: usize) {
    let which = random.pick(&[0, 1, 3, 6, 7, 7]);
    let bit = &mut transfer.bytes[place].bits[which];
    match random.below(5) {
        0 => bit.set_up = random.pick(&[0, 1, 2, 199, 200, 201, 202]),
        1 | 2 => bit.valid = random.pick(&[0, 1, 18, 19, 20, 21, 22, 199, 200, 201, 202]),
        _ => {
            bit.valid = random.pick(&[19, 20, 21, 60, 200, 201]);
            let (begin, end) = (bit.set_up, bit.set_up + bit.valid);
            let inside = random.between(begin, end);
            bit.moves = [0; 3];
            bit.moves[0] = random.pick(&[begin - 1, begin, begin + 1, inside, end - 1, end]);
        }
    }
}

/// The sender's keeping, the receiver's take, and both together with the hold that follows.
fn at_the_handover(random: &mut Random, transfer: &mut Transfer, place: usize) {
    let byte = &mut transfer.bytes[place];
    let kind = random.below(4);
    if kind > 0 {
        byte.value |= 0x80;
    }
    match kind {
        0 => byte.take = random.pick(&[0, 1, 2, 998, 999, 1000, 1001, 1002]),
        1 => {
            byte.keep = random.pick(&[0, 1, 2, 98, 99, 100, 101, 102]);
            byte.take = byte.keep + random.pick(&[0, 1, 2, 20]);
        }
        2 => {
            byte.keep = random.between(0, 100);
            byte.take = random.pick(&[byte.keep + 1, 998, 999, 1000, 1001, 1002]);
        }
        _ => {
            byte.keep = random.between(1, 102);
            byte.take = random.between(1, byte.keep);
            let hold = random.between(98, 104).saturating_sub(byte.take);
            match transfer.bytes.get_mut(place + 1) {
                Some(next) => next.hold = hold,
                None => transfer.last_hold = hold,
            }
        }
    }
}
