//! Marked recordings: legal pairs with a mark at some tick, and recordings of every other class with last bytes changed.

use crate::case::{Case, Expected};
use crate::classes::{draw_class, Kind, CLASSES};
use crate::mark::{first_step, last_byte_at};
use parties::draw::{BRISK, WIDE};
use parties::{steps_of, ticks_of, Random, MARKED};
use station::{Fault, Refusal};

/// The class's name.
pub const NAME: &str = "marked";

/// One or the other.
pub fn draw(random: &mut Random, case: &mut Case) {
    if random.one_in(2) {
        at_a_tick(random, case);
    } else {
        of_another_class(random, case);
    }
}

/// A legal pair of one to three bytes, marked at some tick, where a step begins then. From that tick on the lines may be others:
/// the mark comes before ATN and all rows.
fn at_a_tick(random: &mut Random, case: &mut Case) {
    let (count, style) = (random.between(1, 3), random.pick(&[BRISK, BRISK, WIDE]));
    case.draw_transfer(random, count as usize, style);
    case.lay_out();
    let tick = tick(random, case);
    if random.one_in(4) {
        let ticks = random.pick(&[1, 1, 20, 1000]);
        case.turn_over(tick, tick + ticks, random.pick(&[1, 2, 4, 6, 7]));
    }
    let place = case.begin_step_at(tick);
    case.steps[place] = case.steps[place].marked();
    case.put_file();
    case.expected = overrun(tick);
}

/// Any tick, the first, one by a change of the lines, one of the first after a take, the finish or one after it.
fn tick(random: &mut Random, case: &Case) -> u32 {
    let (finish, total) = (case.finish(), case.pair.total);
    let tick = match random.below(8) {
        0 => 0,
        1 | 2 => case.tick(random),
        3 | 4 => case.tick_by_a_change(random),
        5 => case.ticks[2 * random.place(case.string.len()) + 1] + random.below(8),
        6 => finish,
        _ => finish + random.below(total - finish),
    };
    tick.min(total - 1)
}

/// A recording of another class, with some last bytes changed: to 1, and now and then to 0, 2 or 255.
fn of_another_class(random: &mut Random, case: &mut Case) {
    let is_other = |place: &usize| {
        let class = &CLASSES[*place];
        class.kind == Kind::Recording && class.name != NAME
    };
    let mut drawn = std::iter::repeat_with(|| draw_class(random));
    let place = drawn
        .find(is_other)
        .expect("the classes are drawn without end");
    (CLASSES[place].draw)(random, case);
    let steps = case.file.len().saturating_sub(16) / 4;
    if steps == 0 {
        return;
    }
    for _ in 0..random.pick(&[1, 1, 1, 2, 5]) {
        let place = match random.below(8) {
            0 => 0,
            1 => steps - 1,
            _ => random.place(steps),
        };
        let last = random.pick(&[0, 2, 255, MARKED, MARKED, MARKED, MARKED, MARKED, MARKED]);
        case.file[last_byte_at(place)] = last;
    }
    expect(case);
}

/// What is due, where a pass or a fault was due before the last bytes were changed: a refusal for one above 1, and otherwise
/// 40 at the first mark, unless the fault is decided before it.
fn expect(case: &mut Case) {
    if case.expected == Expected::Nothing {
        return;
    }
    if let Some(step) = first_step(&case.file, |last| last > MARKED) {
        let (refusal, step) = (Refusal::StrayBits, step as u32);
        case.expected = Expected::Refused { refusal, step };
        return;
    }
    let Some(place) = first_step(&case.file, |last| last == MARKED) else {
        return;
    };
    let marked = ticks_of(&steps_of(&case.file)[..place]);
    match case.expected {
        Expected::Fault { tick, .. } if tick < marked => {}
        _ => case.expected = overrun(marked),
    }
}

fn overrun(tick: u32) -> Expected {
    let fault = Fault::Overrun;
    Expected::Fault { fault, tick }
}
