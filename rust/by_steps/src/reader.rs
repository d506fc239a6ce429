//! Goes through the steps of a recording, and says where a tick lies in them.

use crate::entry::Entry;
use crate::numbers::{CUT, RECORDER_OVERRUN};
use crate::recording::Recording;
use crate::step::{Lines, Step, StepBytes};

/// A number with its deciding tick and the step holding it: an answer that
/// lacks only its count.
#[derive(Clone, Copy)]
pub struct Decision {
    pub number: u32,
    pub tick: u32,
    pub step: u32,
}

/// Stands at one step of a recording.
pub struct Reader<'a> {
    /// The steps before the stop: the first step that is marked or moves ATN.
    steps: &'a [StepBytes],
    /// The steps from the stop on.
    from_stop: &'a [StepBytes],
    /// The step's number.
    number: usize,
    step: Step,
    /// The first tick after the step.
    end_tick: u32,
    /// What running out gives outside of the end E.
    run_out: u32,
}

impl<'a> Reader<'a> {
    /// Stands at step 0, if there is one.
    ///
    /// "A tick with ATN pulled gives 23 before anything else." So the steps
    /// before the first such tick are all that the phases ever read, and running
    /// out of them gives 23 in place of 22, at the same place: the tick and the
    /// step that follow the last one read. In a command recording a tick with
    /// ATN released gives 39 likewise, "tested before the phase's rows".
    ///
    /// #103: "The first tick of a marked step gives verdict 40, before ATN is
    /// looked at, also in E, at tick 0". So running out gives 40 likewise, also
    /// where that step moves ATN. The request leaves open whether its tick still
    /// hands a byte over by entering C: as with 23 no row is read, so it
    /// doesn't. A mark after the deciding tick changes nothing, since reading
    /// "stops for good" there.
    pub fn new(recording: &Recording<'a>, entry: Entry) -> Result<Self, Decision> {
        let (steps, from_stop) = recording.split_at_stop(entry.attention_pulled());
        let run_out = match from_stop.first() {
            None => CUT,
            Some(&stop) if Step::of(stop).marked() => RECORDER_OVERRUN,
            Some(_) => entry.attention_moved(),
        };
        let Some(&first) = steps.first() else {
            return Err(Decision {
                number: run_out,
                tick: 0,
                step: 0,
            });
        };
        let step = Step::of(first);
        Ok(Reader {
            steps,
            from_stop,
            number: 0,
            step,
            end_tick: step.duration(),
            run_out,
        })
    }

    /// Goes on to the next step.
    #[inline]
    pub fn advance(&mut self) -> Result<Lines, Decision> {
        self.number += 1;
        let Some(&next) = self.steps.get(self.number) else {
            return Err(self.decide_at(self.run_out, self.end_tick));
        };
        self.step = Step::of(next);
        self.end_tick += self.step.duration();
        Ok(self.lines())
    }

    /// The lines of the step.
    #[inline]
    pub fn lines(&self) -> Lines {
        self.step.lines()
    }

    /// The first tick of the step. Lines change and phases are entered only
    /// here.
    #[inline]
    pub fn tick(&self) -> u32 {
        self.end_tick - self.step.duration()
    }

    /// `number` falls at the first tick of the step.
    #[inline]
    pub fn decide(&self, number: u32) -> Decision {
        self.decide_at(number, self.tick())
    }

    /// A limit: `number` falls if the step holds `tick`, which doesn't lie
    /// before the step.
    #[inline]
    pub fn limit(&self, number: u32, tick: u32) -> Result<(), Decision> {
        if tick < self.end_tick {
            Err(self.decide_at(number, tick))
        } else {
            Ok(())
        }
    }

    /// Goes on while the lines are `lines`; hands back the others that follow.
    #[inline]
    pub fn stay(&mut self, lines: Lines) -> Result<Lines, Decision> {
        let mut seen = self.lines();
        while seen == lines {
            seen = self.advance()?;
        }
        Ok(seen)
    }

    /// The same with a limit: the lines being `lines` still at `tick` gives
    /// `number`. Other lines at that very tick are no matter of the limit.
    #[inline]
    pub fn stay_until(&mut self, lines: Lines, tick: u32, number: u32) -> Result<Lines, Decision> {
        let mut seen = self.lines();
        while seen == lines {
            self.limit(number, tick)?;
            seen = self.advance()?;
        }
        Ok(seen)
    }

    /// The steps from the stop on.
    pub fn steps_from_stop(&self) -> impl Iterator<Item = Step> + 'a {
        self.from_stop.iter().copied().map(Step::of)
    }

    /// The lines of the stop's first tick, if there is a stop.
    pub fn lines_at_stop(&self) -> Option<Lines> {
        self.steps_from_stop().next().map(Step::lines)
    }

    #[inline]
    fn decide_at(&self, number: u32, tick: u32) -> Decision {
        Decision {
            number,
            tick,
            step: self.number as u32,
        }
    }
}
