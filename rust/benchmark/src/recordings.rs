//! What is judged: recordings that all judges read to their end.

use parties::{file_of, steps_of, ticks_of, Card, Step, LONGEST, MOST_STEPS};
use station::{write_to_vec, Fault, COMPLETE, MOST_BYTES};

/// CLK and DATA, both pulled.
pub const BOTH: u8 = 6;

/// The writer's durations, but for the two that have no upper limit.
const LONG_HOLDS: Card = Card {
    hold: LONGEST as u32,
    ready_to_send: LONGEST as u32,
    ..Card::WRITTEN
};

pub struct Recording {
    pub name: &'static str,
    pub file: Vec<u8>,
    /// What it must be answered with.
    pub number: u32,
    pub rounds: usize,
    /// How often it is judged in a round; where it is not said, as often as fills a moment.
    pub passes: Option<u32>,
}

impl Recording {
    pub fn steps(&self) -> usize {
        steps_of(&self.file).len()
    }

    pub fn ticks(&self) -> u32 {
        ticks_of(&steps_of(&self.file))
    }
}

pub fn all() -> Result<Vec<Recording>, String> {
    let string: Vec<u8> = (0..MOST_BYTES)
        .map(|place| (place * 89 + 0x41) as u8)
        .collect();
    let longest = [step(LONGEST, BOTH); MOST_STEPS];
    let long_holds = transfer(&string, LONG_HOLDS);
    let single_ticks = one_tick_each(&transfer(&string[..57], Card::LEAST));
    Ok(vec![
        recording("799 bytes, written", written(&string)?),
        Recording {
            number: Fault::Cut.number(),
            rounds: 3,
            ..recording("longest steps, all (1,1)", file_of(&longest))
        },
        recording("799 bytes, holds of 65,535 ticks", file_of(&long_holds)),
        // a million times in all
        Recording {
            rounds: 10,
            passes: Some(100_000),
            ..recording("S1, one byte", written(b"A")?)
        },
        recording("57 bytes, every step one tick", file_of(&single_ticks)),
    ])
}

fn recording(name: &'static str, file: Vec<u8>) -> Recording {
    Recording {
        name,
        file,
        number: COMPLETE,
        rounds: 11,
        passes: None,
    }
}

pub fn step(duration: u16, lines: u8) -> Step {
    Step::new(duration, lines)
}

/// The steps of a transfer that keeps both parties' rules.
fn transfer(string: &[u8], card: Card) -> Vec<Step> {
    card.transfer(string).lay_out().0.steps()
}

/// The same ticks in steps of one tick, the end held until there are as many steps as there may be.
fn one_tick_each(steps: &[Step]) -> Vec<Step> {
    let ticks = |long: &Step| vec![step(1, long.lines); usize::from(long.duration)];
    let mut each: Vec<Step> = steps.iter().flat_map(ticks).collect();
    each.resize(MOST_STEPS.max(each.len()), step(1, 0));
    each
}

/// What the station's writer puts down.
fn written(bytes: &[u8]) -> Result<Vec<u8>, String> {
    write_to_vec(bytes)
        .map_err(|refusal| format!("{} bytes could not be written: {refusal}", bytes.len()))
}
