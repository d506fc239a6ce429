//! ATN turned over somewhere in a legal recording, and what is then due by the parties' rules.

use crate::case::{Case, Expected};
use crate::entry::{Entry, ATTENTION};
use parties::draw::{BRISK, WIDE};
use parties::{Byte, Random};
use station::Fault;

/// "100 or more ticks after the last take".
const LONG_ENOUGH: u32 = 100;

/// A legal pair of one to four bytes, with ATN turned over from some tick on, up to the finish or for some ticks.
pub fn draw(random: &mut Random, case: &mut Case) {
    let (count, style) = (
        random.between(1, 4),
        random.pick(&[BRISK, BRISK, BRISK, WIDE]),
    );
    case.draw_transfer(random, count as usize, style);
    case.lay_out();
    let tick = tick(random, case);
    let until = match random.below(2) {
        0 => case.finish().max(tick + 1),
        _ => tick + random.pick(&[1, 1, 2, 20, 200]),
    };
    case.turn_over(tick, until, ATTENTION);
    if random.one_in(8) {
        case.split_steps(random, 4);
    }
    expect(case, tick, until);
    case.put_file();
}

/// Any tick, one by a change of the lines, or one about as long after a take as a finish must be; one of the recording's.
fn tick(random: &mut Random, case: &Case) -> u32 {
    let tick = match random.below(4) {
        0 => case.tick(random),
        1 | 2 => case.tick_by_a_change(random),
        _ => {
            let take = case.ticks[2 * random.place(case.string.len()) + 1];
            take + random.between(LONG_ENOUGH - 4, LONG_ENOUGH + 8)
        }
    };
    tick.min(case.pair.total - 1)
}

/// What is due. ATN that is pulled in the finish tick too leaves it open.
fn expect(case: &mut Case, tick: u32, until: u32) {
    let finish = case.finish();
    let fault = |fault, tick| Expected::Fault { fault, tick };
    case.expected = match case.entry {
        Entry::Data => fault(Fault::Attention, tick),
        Entry::Command if tick > finish => fault(Fault::MovedAfterTheEnd, tick),
        Entry::Command if tick == finish => Expected::Nothing,
        Entry::Command => match finished_at(case, tick) {
            None => fault(Fault::AttentionReleased, tick),
            Some(_) if until != finish => fault(Fault::MovedAfterTheEnd, until.min(finish)),
            Some(count) => {
                case.string.truncate(count);
                case.ticks.truncate(2 * count);
                Expected::CompleteByTicks
            }
        },
    };
}

/// How many bytes commands have that are finished at a tick, if they may be. Where DATA is pulled without a break after bit
/// 8, some receiver took it at offset 1, whenever the drawn one did.
fn finished_at(case: &Case, tick: u32) -> Option<usize> {
    let bytes = &case.transfer.bytes;
    let held = |(place, byte): (usize, &Byte)| {
        let (let_go, take) = (case.ticks[2 * place], case.ticks[2 * place + 1]);
        let earliest = if byte.take <= byte.keep {
            let_go - byte.keep + 1
        } else {
            take
        };
        let next = bytes.get(place + 1);
        let hold = next.map_or(case.transfer.last_hold, |next| next.hold);
        (earliest + LONG_ENOUGH..take + hold).contains(&tick)
    };
    let place = bytes.iter().enumerate().position(held)?;
    Some(place + 1)
}
