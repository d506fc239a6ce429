//! The classes of cases, each in a file of its own.

mod attention;
mod crossed;
mod damaged;
mod extremes;
mod handovers;
mod legal;
mod limits;
mod many_bytes;
mod marked;
mod noise;
mod written;

use crate::case::Case;
use crate::entry::Entry;
use parties::Random;

/// What a class draws.
#[derive(Clone, Copy, PartialEq, Eq)]
pub enum Kind {
    /// A recording to judge.
    Recording,
    /// A string to write.
    Writing,
}

/// A class of cases.
pub struct Class {
    /// Its name, as the program prints it and takes it.
    pub name: &'static str,
    /// How many of a thousand cases are of it.
    pub share: u32,
    /// What it draws.
    pub kind: Kind,
    /// Draws a case, into one that is empty but for its entry.
    draw: fn(&mut Random, &mut Case),
}

/// A class of recordings.
const fn recordings(name: &'static str, share: u32, draw: fn(&mut Random, &mut Case)) -> Class {
    Class {
        name,
        share,
        kind: Kind::Recording,
        draw,
    }
}

/// Every class. The shares add up to a thousand.
pub const CLASSES: [Class; 11] = [
    recordings("legal", 180, legal::draw),
    recordings("many-bytes", 3, many_bytes::draw),
    recordings("limits", 236, limits::draw),
    recordings("handovers", 120, handovers::draw),
    recordings("attention", 50, attention::draw),
    recordings("crossed", 20, crossed::draw),
    recordings("damaged", 180, damaged::draw),
    recordings("noise", 100, noise::draw),
    recordings(marked::NAME, 80, marked::draw),
    recordings("extremes", 3, extremes::draw),
    Class {
        name: "written",
        share: 28,
        kind: Kind::Writing,
        draw: written::draw,
    },
];

/// The place of a class in the list, drawn by the shares.
pub fn draw_class(random: &mut Random) -> usize {
    let mut left = random.below(1000);
    for (place, class) in CLASSES.iter().enumerate() {
        if left < class.share {
            return place;
        }
        left -= class.share;
    }
    unreachable!("the shares add up to a thousand")
}

/// Draws a case of the class at that place: its entry first, each as often as the other.
pub fn draw_case(random: &mut Random, class: usize) -> Case {
    let mut case = Case {
        entry: random.pick(&Entry::ALL),
        ..Case::default()
    };
    (CLASSES[class].draw)(random, &mut case);
    case
}

/// The place of the class of that name.
pub fn named(name: &str) -> Option<usize> {
    CLASSES.iter().position(|class| class.name == name)
}

#[cfg(test)]
mod tests {
    use super::*;

    #[test]
    fn the_shares_add_up_to_a_thousand() {
        let shares = CLASSES.iter().map(|class| class.share);
        assert_eq!(shares.sum::<u32>(), 1000);
    }

    #[test]
    fn a_seed_gives_the_same_case_again() {
        for (place, class) in CLASSES.iter().enumerate() {
            for seed in 0..20 {
                let [once, again] = [0; 2].map(|_| draw_case(&mut Random::new(seed), place));
                assert_eq!(once.entry, again.entry, "{} {seed}", class.name);
                assert_eq!(once.file, again.file, "{} {seed}", class.name);
                assert_eq!(once.string, again.string, "{} {seed}", class.name);
            }
        }
    }
}
