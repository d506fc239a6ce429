//! One case: what a class draws.

use crate::entry::Entry;
use parties::draw::{self, Style};
use parties::{check_pair, file_of, ticks_of, Kind, Pair, Random, Step, Transfer};
use station::{Fault, Refusal};

/// What must come of a case, besides both judges agreeing.
#[derive(Clone, Copy, Debug, Default, PartialEq, Eq)]
pub enum Expected {
    /// Nothing more.
    #[default]
    Nothing,
    /// It is complete with the case's string.
    Complete,
    /// It is complete with the case's string, each tick of its ledger the same as the case's or earlier.
    CompleteByTicks,
    /// It has this fault, decided at this tick.
    Fault {
        /// The fault.
        fault: Fault,
        /// The tick.
        tick: u32,
    },
    /// It is an empty stream.
    Empty,
    /// It is refused, before the lent memory is looked at, for this step.
    Refused {
        /// The refusal.
        refusal: Refusal,
        /// The step.
        step: u32,
    },
}

/// One case; a default one is empty.
#[derive(Default)]
pub struct Case {
    /// The entry that the recording is handed to.
    pub entry: Entry,
    /// A recording's steps, before they are put into a file.
    pub steps: Vec<Step>,
    /// The recording.
    pub file: Vec<u8>,
    /// What must come of it.
    pub expected: Expected,
    /// The string of a drawn pair, or the string to write.
    pub string: Vec<u8>,
    /// A drawn pair's own two ticks for each byte.
    pub ticks: Vec<u32>,
    /// How long the writer's destination is.
    pub destination: usize,
    /// The transfer that the recording was made from.
    pub transfer: Transfer,
    /// Its tracks.
    pub pair: Pair,
}

impl Case {
    /// Draws a transfer of `count` bytes for the case's entry. It keeps every rule.
    pub fn draw_transfer(&mut self, random: &mut Random, count: usize, style: Style) {
        self.transfer = match self.entry {
            Entry::Data => draw::transfer(random, count, style),
            Entry::Command => draw::command(random, count, style),
        };
    }

    /// Makes the steps of the transfer, with its string and ticks.
    pub fn lay_out(&mut self) {
        (self.pair, self.ticks) = self.transfer.lay_out();
        self.string = self.transfer.string();
        self.steps = self.pair.steps();
    }

    /// Expects what the parties' rules say of the transfer: if it keeps them all, it is complete.
    pub fn expect_by_the_rules(&mut self) {
        if check_pair(&self.pair, &self.string).is_ok() {
            self.expected = Expected::CompleteByTicks;
        }
    }

    /// The finish tick of the transfer that was laid out: where its silence begins, or where ATN is released.
    pub fn finish(&self) -> u32 {
        match self.pair.kind {
            Kind::Plain => self.pair.total - self.transfer.silence,
            Kind::Command { finish } => finish,
        }
    }

    /// Puts the steps into the file, its header right.
    pub fn put_file(&mut self) {
        self.file = file_of(&self.steps);
    }

    /// A tick of the steps; 0 if there is none.
    pub fn tick(&self, random: &mut Random) -> u32 {
        random.below(ticks_of(&self.steps))
    }
}
