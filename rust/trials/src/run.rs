//! The run: cases drawn one after another, each from a seed of its own.

use crate::case::Case;
use crate::classes::{draw_case, draw_class, Kind, CLASSES};
use crate::judge_trial::JudgeTrial;
use crate::outcome::Outcome;
use crate::report::{self, Name};
use crate::tally::Tally;
use crate::write_trial::WriteTrial;
use parties::Random;
use trials::differing_classes;

/// How many differences are printed; the rest are only counted.
const PRINTED: u64 = 20;

/// The trials, with what came of them so far.
struct Trials {
    judge: JudgeTrial,
    write: WriteTrial,
    tally: Tally,
    /// Whether every case is printed.
    print_all: bool,
}

/// Runs `count` cases from a seed, and prints what came of them; true if it is a success.
#[must_use]
pub fn run(count: u64, seed: u64) -> bool {
    let mut random = Random::new(seed);
    let mut trials = Trials::new(false);
    for _ in 0..count {
        let class = draw_class(&mut random);
        let seed = random.bits();
        trials.try_case(Name { seed, class });
    }
    trials.conclude()
}

/// Runs one case again and prints it; true if there is no difference.
#[must_use]
pub fn run_one(seed: u64, class: usize) -> bool {
    let mut trials = Trials::new(true);
    trials.try_case(Name { seed, class });
    println!("{} differences", trials.tally.differences);
    trials.tally.differences == 0
}

impl Trials {
    fn new(print_all: bool) -> Trials {
        Trials {
            judge: JudgeTrial::new(),
            write: WriteTrial::new(),
            tally: Tally::default(),
            print_all,
        }
    }

    /// Draws a case and tries it. What a string was written to is judged in the same case.
    fn try_case(&mut self, name: Name) {
        let class = &CLASSES[name.class];
        let mut random = Random::new(name.seed);
        let mut case = draw_case(&mut random, name.class);
        self.tally.count_case(name.class);
        let mut different = false;
        if class.kind == Kind::Writing {
            let outcome = self.write.run(&mut random, &mut case);
            self.tally.count_written(outcome.answer.number);
            different = self.look_at(name, &case, "written", &outcome);
        }
        if class.kind == Kind::Recording || !case.file.is_empty() {
            let outcome = self.judge.run(&mut random, &case);
            self.tally.count_judged(case.entry, outcome.answer.number);
            self.tally.count_mark(case.entry, self.judge.fell);
            different |= self.look_at(name, &case, "judged", &outcome);
        }
        self.tally.differences += u64::from(different);
    }

    /// Whether a case is different; if so it is printed, unless many were before it.
    fn look_at(&self, name: Name, case: &Case, what: &str, outcome: &Outcome) -> bool {
        let different = outcome.wrong.is_err();
        if self.print_all || different && self.tally.differences < PRINTED {
            report::print(name, case, what, outcome);
        }
        different
    }

    fn conclude(mut self) -> bool {
        self.tally.shown_pairs = self.judge.shown_pairs;
        self.tally.classes_differ = differing_classes().len() as u64;
        self.tally.conclude()
    }
}

#[cfg(test)]
mod tests {
    use super::*;

    #[test]
    fn a_short_run_has_no_difference() {
        assert!(run(3000, 1));
    }

    #[test]
    fn some_cases_of_each_class_have_no_difference() {
        for class in 0..CLASSES.len() {
            assert!((0..4).all(|seed| run_one(seed, class)));
        }
    }
}
