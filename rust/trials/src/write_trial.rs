//! One string written through the border and by the other writer. What is written is judged afterwards.

use crate::case::{Case, Expected};
use crate::entry::Entry;
use crate::lent::{Lent, Pattern, Place};
use crate::outcome::{same, same_answer, Outcome};
use by_steps::Answer;
use parties::Random;
use station::{Fault, WRITTEN};

/// The memory of the trial, used again for each case.
pub struct WriteTrial {
    pattern: Pattern<u8>,
    string: Lent<u8>,
    destination: Lent<u8>,
    other_destination: Lent<u8>,
}

impl WriteTrial {
    /// The memory, its pattern drawn.
    pub fn new() -> WriteTrial {
        let mut random = Random::new(0xB05);
        WriteTrial {
            pattern: Pattern::new(1 << 17, || random.byte()),
            string: Lent::new(),
            destination: Lent::new(),
            other_destination: Lent::new(),
        }
    }

    /// Writes the case's string twice and compares. If it was written, the case's file is then what was written, with what
    /// the judge must say of it.
    pub fn run(&mut self, random: &mut Random, case: &mut Case) -> Outcome {
        let from = Place::draw(random, case.string.len(), &self.pattern);
        let to = Place::draw(random, case.destination, &self.pattern);
        self.string.fill(from, &self.pattern);
        self.string.part_mut(from).copy_from_slice(&case.string);
        self.destination.fill(to, &self.pattern);
        self.other_destination.fill(to, &self.pattern);
        let answer = trials::write(self.string.part(from), self.destination.part_mut(to));
        let other = by_steps::write(&case.string, self.other_destination.part_mut(to));
        let wrong = same_answer(answer, other).and_then(|()| self.check(answer, from, to, case));
        if answer.number == WRITTEN && wrong.is_ok() {
            case.file = self.destination.part(to)[..answer.count as usize].to_vec();
            case.expected = match case.entry {
                Entry::Data if case.string.is_empty() => Expected::Empty,
                Entry::Data => Expected::Complete,
                Entry::Command => Expected::Fault {
                    fault: Fault::AttentionReleased,
                    tick: 0,
                },
            };
        }
        Outcome {
            answer,
            other,
            wrong,
        }
    }

    /// The destination whole is what the other writer left; beyond the length that was written, and on both sides, all is as
    /// it was; and so is the string.
    fn check(&self, answer: Answer, from: Place, to: Place, case: &Case) -> Result<(), String> {
        let (destination, other) = (self.destination.part(to), self.other_destination.part(to));
        same(destination, other, "the destinations differ")?;
        same(self.string.part(from), &case.string, "the string changed")?;
        let length = answer.count as usize;
        self.destination.check_rest(length, to, &self.pattern)?;
        self.string
            .check_rest(case.string.len(), from, &self.pattern)
    }
}
