//! Transfers whose bytes are all alike.

use crate::limits;
use crate::{Bit, Byte, Ending, Transfer};

/// One span of each kind, in ticks; the names are those of [`Transfer`] and [`Byte`].
#[derive(Clone, Copy, Debug)]
#[allow(missing_docs)]
pub struct Card {
    pub hold: u32,
    pub ready_to_send: u32,
    /// Of every byte but a plain transfer's last.
    pub ready_for_data: u32,
    /// Of a plain transfer's last byte: how long it is ready for data.
    pub end_mark: u32,
    pub acknowledgement: u32,
    pub after_acknowledgement: u32,
    pub set_up: u32,
    pub valid: u32,
    pub take: u32,
    pub silence: u32,
}

impl Card {
    /// Document 01, "What the writer puts down".
    pub const WRITTEN: Card = Card {
        hold: 200,
        ready_to_send: 50,
        ready_for_data: 60,
        end_mark: 220,
        acknowledgement: 80,
        after_acknowledgement: 40,
        set_up: 70,
        valid: 60,
        take: 30,
        silence: 100,
    };

    /// The least that the rules allow after any byte.
    pub const LEAST: Card = Card {
        hold: limits::LATER_HOLD.least,
        ready_to_send: limits::READY_TO_SEND.least,
        ready_for_data: limits::READY_FOR_DATA.least,
        end_mark: limits::END_MARK.least,
        acknowledgement: limits::ACKNOWLEDGEMENT.least,
        after_acknowledgement: limits::AFTER_ACKNOWLEDGEMENT.least,
        set_up: limits::SET_UP.least,
        valid: limits::VALID.least,
        take: limits::TAKE.least,
        silence: limits::SILENCE.least,
    };

    /// The transfer of a string with these spans. The receiver takes DATA at tick 0, and the sender lets go of it with bit 8.
    #[must_use]
    pub fn transfer(&self, string: &[u8]) -> Transfer {
        let mut bytes = self.bytes(string);
        if let Some(last) = bytes.last_mut() {
            last.ready_for_data = self.end_mark;
        }
        Transfer {
            first_take: 0,
            bytes,
            acknowledgement: self.acknowledgement,
            after_acknowledgement: self.after_acknowledgement,
            last_hold: self.hold,
            last_ready_to_send: self.ready_to_send,
            silence: self.silence,
            ending: Ending::Plain,
        }
    }

    /// The command of a string with these spans, nothing after its finish.
    #[must_use]
    pub fn command(&self, string: &[u8]) -> Transfer {
        Transfer {
            bytes: self.bytes(string),
            last_hold: self.hold,
            ending: Ending::Command(Vec::new()),
            ..Transfer::default()
        }
    }

    fn bytes(&self, string: &[u8]) -> Vec<Byte> {
        string.iter().map(|value| self.byte(*value)).collect()
    }

    fn byte(&self, value: u8) -> Byte {
        let bit = Bit {
            set_up: self.set_up,
            valid: self.valid,
            moves: [0; 3],
        };
        Byte {
            value,
            hold: self.hold,
            ready_to_send: self.ready_to_send,
            ready_for_data: self.ready_for_data,
            bits: [bit; 8],
            keep: 0,
            take: self.take,
        }
    }
}
