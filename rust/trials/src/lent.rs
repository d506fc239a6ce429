//! Lent memory: a part of a larger allocation, with a pattern in it and in the canaries around it.

use parties::Random;

/// How many elements of canary there are before the lent part at least, and how many after it.
const CANARY: usize = 32;

/// Random-looking elements that memory is filled from, and held against afterwards.
pub struct Pattern<T> {
    table: Vec<T>,
}

impl<T: Copy> Pattern<T> {
    /// So many elements, each drawn.
    pub fn new(length: usize, draw: impl FnMut() -> T) -> Pattern<T> {
        Pattern {
            table: std::iter::repeat_with(draw).take(length).collect(),
        }
    }
}

/// Where lent memory begins in its allocation, how long it is, and where its pattern begins in the table.
#[derive(Clone, Copy)]
pub struct Place {
    from: usize,
    length: usize,
    pattern: usize,
}

impl Place {
    /// A place for `length` elements. Where it begins is drawn too, so that every alignment comes up.
    pub fn draw<T>(random: &mut Random, length: usize, pattern: &Pattern<T>) -> Place {
        let from = CANARY + random.place(16);
        let spare = pattern.table.len() - (from + length + CANARY);
        Place {
            from,
            length,
            pattern: random.place(spare + 1),
        }
    }

    /// The end of the lent part.
    fn until(self) -> usize {
        self.from + self.length
    }
}

/// An allocation that a part is lent of.
pub struct Lent<T> {
    memory: Vec<T>,
}

impl<T: Copy + PartialEq> Lent<T> {
    /// Nothing yet.
    pub fn new() -> Lent<T> {
        Lent { memory: Vec::new() }
    }

    /// Fills the lent part and its canaries from the pattern.
    pub fn fill(&mut self, place: Place, pattern: &Pattern<T>) {
        let whole = place.until() + CANARY;
        self.memory.clear();
        let table = &pattern.table[place.pattern..][..whole];
        self.memory.extend_from_slice(table);
    }

    /// The lent part, to lend.
    pub fn part_mut(&mut self, place: Place) -> &mut [T] {
        &mut self.memory[place.from..place.until()]
    }

    /// The lent part, to look at.
    pub fn part(&self, place: Place) -> &[T] {
        &self.memory[place.from..place.until()]
    }

    /// Whether the lent part from its `first` element on, and the canaries on both sides, are as they were.
    pub fn check_rest(
        &self,
        first: usize,
        place: Place,
        pattern: &Pattern<T>,
    ) -> Result<(), String> {
        let was = &pattern.table[place.pattern..][..self.memory.len()];
        let (from, until) = (place.from, place.until());
        if self.memory[..from] != was[..from] || self.memory[until..] != was[until..] {
            return Err("memory beside what was lent changed".to_string());
        }
        let kept = from + first;
        if kept > until || self.memory[kept..until] != was[kept..until] {
            return Err("a place beyond the count changed".to_string());
        }
        Ok(())
    }
}

#[cfg(test)]
mod tests {
    use super::*;

    /// Each element of an allocation is changed in turn: all but the first lent ones must be found.
    #[test]
    fn every_changed_element_is_found() {
        let mut random = Random::new(3);
        let mut values = Random::new(4);
        let pattern = Pattern::new(500, || values.byte());
        let place = Place::draw(&mut random, 100, &pattern);
        let mut lent = Lent::new();
        for first in [0, 7, 100] {
            for changed in 0..place.until() + CANARY {
                lent.fill(place, &pattern);
                assert_eq!(lent.check_rest(first, place, &pattern), Ok(()));
                lent.memory[changed] ^= 1;
                let may_change = (place.from..place.from + first).contains(&changed);
                assert_eq!(lent.check_rest(first, place, &pattern).is_ok(), may_change);
            }
        }
        assert!(lent.check_rest(101, place, &pattern).is_err());
    }
}
