//! The measuring: in each round one program after the other, so that what else the machine does falls on all of them.

use crate::judges::{Judge, Lent, JUDGES};
use crate::recordings::Recording;
use crate::sigrok::{self, Sigrok};
use std::hint::black_box;
use std::time::Instant;

/// How long one measurement of a judge should at least take, in seconds, and the most passes of one.
const MOMENT: f64 = 0.02;
const MOST_PASSES: f64 = 1_000_000.0;

/// One program's times.
pub struct Measured {
    pub name: String,
    /// Seconds for one judgement of a recording, one for each round, with the start-up where there is one.
    pub seconds: Vec<f64>,
    /// Seconds for its start-up in the same rounds; none for a judge, which has no start-up.
    pub start_ups: Vec<f64>,
}

/// The judges in their order, and then sigrok, if it is here.
pub fn measure(recording: &Recording, peer: Option<&Sigrok>) -> Result<Vec<Measured>, String> {
    let mut runs: Vec<Run> = JUDGES
        .iter()
        .map(|judge| Run::new(judge, recording))
        .collect();
    let mut all: Vec<Measured> = JUDGES.iter().map(|judge| empty(judge.name)).collect();
    let dump = match peer {
        Some(here) => Some((here, here.dump(recording)?)),
        None => None,
    };
    all.extend(peer.map(|here| empty(&here.version)));
    for _ in 0..recording.rounds {
        for (run, measured) in runs.iter_mut().zip(&mut all) {
            measured.seconds.push(run.time(run.passes));
        }
        if let (Some((here, dump)), Some(measured)) = (&dump, all.last_mut()) {
            measured.start_ups.push(here.start_up()?);
            measured.seconds.push(sigrok::decode(dump)?.seconds);
        }
    }
    Ok(all)
}

fn empty(name: &str) -> Measured {
    Measured {
        name: name.to_string(),
        seconds: Vec::new(),
        start_ups: Vec::new(),
    }
}

/// A judge with the recording that it reads and the buffers that it was lent.
struct Run<'a> {
    judge: &'a Judge,
    file: &'a [u8],
    lent: Lent,
    passes: u32,
}

impl<'a> Run<'a> {
    fn new(judge: &'a Judge, recording: &'a Recording) -> Self {
        let mut run = Run {
            judge,
            file: &recording.file,
            lent: Lent::new(),
            passes: 0,
        };
        run.passes = recording.passes.unwrap_or_else(|| run.enough());
        run
    }

    /// Seconds for one judgement, over so many passes. The buffers are as the pass before left them.
    fn time(&mut self, passes: u32) -> f64 {
        let began = Instant::now();
        for _ in 0..passes {
            let (bytes, ledger) = (&mut self.lent.bytes, &mut self.lent.ledger);
            black_box((self.judge.judge)(
                black_box(self.file),
                black_box(bytes),
                black_box(ledger),
            ));
        }
        began.elapsed().as_secs_f64() / f64::from(passes)
    }

    /// How many passes fill a moment. The first ones also warm up.
    fn enough(&mut self) -> u32 {
        let once = self.time(1);
        let often = (MOMENT / once / 4.0).clamp(1.0, MOST_PASSES) as u32;
        let once = self.time(often);
        (MOMENT / once).clamp(1.0, MOST_PASSES).ceil() as u32
    }
}
