//! Edits of a list of steps. A mark is the first tick's, and stays there.

use crate::case::Case;
use parties::{ticks_of, Random, Step, MOST_STEPS};

impl Case {
    /// Splits steps into neighbours that show the same lines, once in so many steps, as far as there is room.
    pub fn split_steps(&mut self, random: &mut Random, one_in: u32) {
        let mut room = MOST_STEPS.saturating_sub(self.steps.len());
        for mut rest in std::mem::take(&mut self.steps) {
            while room > 0 && rest.duration > 1 && random.one_in(one_in) {
                let duration = random.between(1, u32::from(rest.duration) - 1) as u16;
                self.steps.push(Step { duration, ..rest });
                rest = Step::new(rest.duration - duration, rest.lines);
                room -= 1;
            }
            self.steps.push(rest);
        }
    }

    /// Sets SRQ: nowhere, everywhere or at random.
    pub fn set_service_request(&mut self, random: &mut Random) {
        match random.below(4) {
            0 => self.steps.iter_mut().for_each(|step| step.lines |= 8),
            1 => {
                for step in &mut self.steps {
                    step.lines |= random.pick(&[0, 8]);
                }
            }
            _ => {}
        }
    }

    /// Turns the lines of `mask` over at every tick from `from` until `until`.
    pub fn turn_over(&mut self, from: u32, until: u32, mask: u8) {
        let mut tick = 0;
        for step in std::mem::take(&mut self.steps) {
            let end = tick + u32::from(step.duration);
            let first = from.clamp(tick, end);
            let last = until.clamp(first, end);
            let parts = [(first - tick, 0), (last - first, mask), (end - last, 0)];
            let mut mark = step.mark;
            for (ticks, turned) in parts.into_iter().filter(|part| part.0 > 0) {
                self.steps.push(Step {
                    duration: ticks as u16,
                    lines: step.lines ^ turned,
                    mark,
                });
                mark = 0;
            }
            tick = end;
        }
    }

    /// Leaves out every tick from `tick` on.
    pub fn cut_at(&mut self, tick: u32) {
        let mut begin = 0;
        for place in 0..self.steps.len() {
            let end = begin + u32::from(self.steps[place].duration);
            if tick < end {
                let left = tick - begin;
                self.steps.truncate(place + usize::from(left > 0));
                if left > 0 {
                    self.steps[place].duration = left as u16;
                }
                return;
            }
            begin = end;
        }
    }

    /// Makes a step begin at a tick of the recording, if none does, and gives its place.
    pub fn begin_step_at(&mut self, tick: u32) -> usize {
        let mut end = 0;
        let holds = |step: &Step| {
            end += u32::from(step.duration);
            tick < end
        };
        let place = self.steps.iter().position(holds);
        let place = place.expect("the tick is one of the recording's");
        let rest = (end - tick) as u16;
        if rest == self.steps[place].duration {
            return place;
        }
        self.steps[place].duration -= rest;
        let second = Step::new(rest, self.steps[place].lines);
        self.steps.insert(place + 1, second);
        place + 1
    }

    /// A tick at which a step begins, or one tick before or after it: where a rule's limit is likely to lie.
    pub fn tick_by_a_change(&self, random: &mut Random) -> u32 {
        let place = random.place(self.steps.len());
        let begin = ticks_of(&self.steps[..place]);
        (begin + random.below(3)).saturating_sub(1)
    }
}

#[cfg(test)]
mod tests {
    use super::*;

    fn case() -> Case {
        let steps = [
            Step::new(3, 2),
            Step::new(1, 6).marked(),
            Step::new(5, 0).marked(),
        ];
        Case {
            steps: steps.to_vec(),
            ..Case::default()
        }
    }

    /// The lines and the mark at every tick.
    fn ticks(case: &Case) -> Vec<(u8, u8)> {
        let mut ticks = Vec::new();
        for step in &case.steps {
            ticks.push((step.lines, step.mark));
            ticks.extend((1..step.duration).map(|_| (step.lines, 0)));
        }
        ticks
    }

    #[test]
    fn splitting_keeps_every_tick() {
        let mut random = Random::new(5);
        let mut split = case();
        split.split_steps(&mut random, 1);
        assert!(split.steps.len() > 4);
        assert_eq!(ticks(&split), ticks(&case()));
    }

    #[test]
    fn turning_over_and_cutting_are_right_at_every_tick() {
        for from in 0..10u32 {
            for until in from..12 {
                let mut turned = case();
                turned.turn_over(from, until, 5);
                for (tick, (lines, mark)) in ticks(&case()).into_iter().enumerate() {
                    let inside = (from..until).contains(&(tick as u32));
                    let lines = if inside { lines ^ 5 } else { lines };
                    assert_eq!(ticks(&turned)[tick], (lines, mark));
                }
                assert_eq!(ticks_of(&turned.steps), 9);
            }
            let mut cut = case();
            cut.cut_at(from);
            assert_eq!(ticks(&cut), ticks(&case())[..9.min(from as usize)]);
        }
    }

    #[test]
    fn a_step_begins_at_every_tick_that_is_asked_for() {
        for tick in 0..9 {
            let mut begun = case();
            let place = begun.begin_step_at(tick);
            assert_eq!(ticks_of(&begun.steps[..place]), tick);
            assert_eq!(ticks(&begun), ticks(&case()));
            let begins = [0, 3, 4].contains(&tick);
            assert_eq!(begun.steps.len(), if begins { 3 } else { 4 });
        }
    }
}
