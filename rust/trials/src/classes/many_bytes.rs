//! Long legal pairs: up to the 841 bytes that 16,000 steps can hold, of commands 842.

use crate::case::Case;
use crate::classes::legal::put_legal;
use crate::entry::Entry;
use parties::draw::{BRISK, DENSE};
use parties::{Ending, Random, MOST_STEPS};

/// The most bytes that a recording can hold, at nineteen steps for each: data has five more, with the end mark and the end,
/// and commands two, the first hold and the finish.
fn most_bytes(entry: Entry) -> u32 {
    let more = match entry {
        Entry::Data => 5,
        Entry::Command => 2,
    };
    (MOST_STEPS as u32 - more) / 19
}

/// A long legal pair; one that has too many steps is drawn again with fewer bytes.
pub fn draw(random: &mut Random, case: &mut Case) {
    let most = most_bytes(case.entry);
    let (mut count, style) = match random.below(4) {
        0 => (most, DENSE),
        1 => (random.between(700, most), DENSE),
        2 => (random.between(21, 700), BRISK),
        _ => (random.between(21, 100), BRISK),
    };
    loop {
        case.draw_transfer(random, count as usize, style);
        if count == most {
            shorten(case);
        }
        case.lay_out();
        if case.steps.len() <= MOST_STEPS {
            break;
        }
        count -= 1;
    }
    put_legal(random, case);
}

/// The receiver takes DATA at tick 0, and there is nothing after a finish: the fewest steps.
fn shorten(case: &mut Case) {
    case.transfer.first_take = 0;
    if let Ending::Command(stretches) = &mut case.transfer.ending {
        stretches.clear();
    }
}

#[cfg(test)]
mod tests {
    use super::*;

    #[test]
    fn the_most_bytes_are_841_or_842_and_they_come_up() {
        for (entry, most) in [(Entry::Data, 841), (Entry::Command, 842)] {
            assert_eq!(most_bytes(entry), most);
            let drawn = (0..40).map(|seed| drawn_bytes(entry, seed));
            assert_eq!(drawn.max(), Some(most as usize));
        }
    }

    fn drawn_bytes(entry: Entry, seed: u64) -> usize {
        let mut case = Case {
            entry,
            ..Case::default()
        };
        draw(&mut Random::new(seed), &mut case);
        assert!(case.steps.len() <= MOST_STEPS);
        case.string.len()
    }
}
