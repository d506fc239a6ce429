//! Carried and open handovers at many offsets, legal and not.

use crate::case::Case;
use parties::draw::BRISK;
use parties::Random;

/// The DATA line's bit.
const DATA: u8 = 4;

/// One to three bytes, mostly with a one in bit 8, whose keeping, take and release lie anywhere about their limits. Once in
/// a while DATA is turned over for some ticks inside a handover, or CLK, or both.
pub fn draw(random: &mut Random, case: &mut Case) {
    let count = random.between(1, 3) as usize;
    case.draw_transfer(random, count, BRISK);
    let place = random.place(count);
    let byte = &mut case.transfer.bytes[place];
    if !random.one_in(8) {
        byte.value |= 0x80;
    }
    byte.keep = random.between(0, 110);
    byte.take = match random.below(4) {
        0 => random.between(0, 1010),
        1 => byte.keep + random.between(0, 10),
        _ => random.between(0, byte.keep),
    };
    let released = random.between(90, 230);
    let hold = released.saturating_sub(byte.take);
    if random.one_in(2) {
        match case.transfer.bytes.get_mut(place + 1) {
            Some(next) => next.hold = hold,
            None => case.transfer.last_hold = hold,
        }
    }
    case.lay_out();
    if random.one_in(3) {
        let offset_0 = case.ticks[2 * place] - case.transfer.bytes[place].keep;
        let from = offset_0 + random.between(0, 130);
        let ticks = random.pick(&[1, 1, 2, 5, 50, 1000]);
        let mask = random.pick(&[DATA, DATA, 2, 6]);
        case.turn_over(from, from + ticks, mask);
    } else {
        case.expect_by_the_rules();
    }
    case.put_file();
}
