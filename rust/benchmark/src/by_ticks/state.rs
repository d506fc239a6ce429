//! The judge's state, and what one tick makes of it.

use super::verdict::Verdict;

/// What a tick shows: for each line whether it's pulled.
#[derive(Clone, Copy)]
pub struct Lines {
    pub attention: bool,
    pub clock: bool,
    pub data: bool,
}

/// A tick and the step holding it.
#[derive(Clone, Copy)]
pub struct Place {
    pub tick: u32,
    pub step: u32,
}

#[derive(Clone, Copy, PartialEq, Eq)]
pub enum Phase {
    Start,
    Hold,
    ReadyToSend,
    ReadyForData,
    Acknowledgement,
    AfterAcknowledgement,
    SetUp,
    Valid,
    Open,
    Carried,
    End,
}

/// What is known of the byte being sent, or of the one sent last.
#[derive(Clone, Copy)]
pub struct Byte {
    pub value: u8,
    pub bits: u8,
    pub end_mark: bool,
    pub let_go: u32,
    pub take: u32,
}

#[derive(Clone, Copy)]
pub struct State {
    pub phase: Phase,
    /// The phase's first tick. *Open* and *carried* share the handover's.
    pub first: Place,
    /// D's first tick, from which G's time-out counts.
    pub ready: u32,
    /// DATA in the latest tick of the bit.
    pub data: bool,
    pub byte: Byte,
    /// The bytes handed over.
    pub count: u32,
}

/// What a tick leads to.
pub enum Next {
    /// The state as it is.
    Stay,
    Go(State),
    /// Go, with the state's byte handed over.
    HandOver(State),
    Stop(Verdict),
}

impl Byte {
    pub const NONE: Byte = Byte {
        value: 0,
        bits: 0,
        end_mark: false,
        let_go: 0,
        take: 0,
    };
    const BITS: u8 = 8;

    /// The byte with one more bit, least significant first.
    pub fn with(self, bit: bool) -> Self {
        Byte {
            value: self.value | u8::from(bit) << self.bits,
            bits: self.bits + 1,
            ..self
        }
    }

    pub fn is_whole(self) -> bool {
        self.bits == Self::BITS
    }
}

impl State {
    /// Before tick 0.
    pub const START: State = State {
        phase: Phase::Start,
        first: Place { tick: 0, step: 0 },
        ready: 0,
        data: false,
        byte: Byte::NONE,
        count: 0,
    };

    /// Reads one tick. "A tick with ATN pulled gives 23 before anything else."
    #[inline]
    pub fn next(self, now: Place, lines: Lines) -> Next {
        if lines.attention {
            return Next::Stop(Verdict::Attention);
        }
        match self.phase {
            Phase::Start => self.start(now, lines),
            Phase::Hold => self.hold(now, lines),
            Phase::ReadyToSend => self.ready_to_send(now, lines),
            Phase::ReadyForData => self.ready_for_data(now, lines),
            Phase::Acknowledgement => self.acknowledgement(now, lines),
            Phase::AfterAcknowledgement => self.after_acknowledgement(now, lines),
            Phase::SetUp => self.set_up(now, lines),
            Phase::Valid => self.valid(now, lines),
            Phase::Open => self.open(now, lines),
            Phase::Carried => self.carried(now, lines),
            Phase::End => self.end(lines),
        }
    }

    /// The offset of this tick in the phase.
    #[inline]
    pub fn offset(&self, now: Place) -> u32 {
        now.tick - self.first.tick
    }

    /// The phase led into by this tick, which is its offset 0.
    #[inline]
    pub fn enter(self, phase: Phase, now: Place) -> Self {
        State {
            phase,
            first: now,
            ..self
        }
    }
}
