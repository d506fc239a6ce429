//! Which entry judges. Document 01's is the plain one; request #101 of document
//! 02 asks for "a separate entry". All that differs by the entry alone is asked
//! for here, so that rows which both share stand once.

use crate::limits::{END_MARK_WAIT, PLAIN_SILENCE_MOST};
use crate::numbers::{
    ATTENTION, ATTENTION_RELEASED, END_MARK_NOT_ACKNOWLEDGED, END_MARK_UNDER_ATTENTION,
};

#[derive(Clone, Copy, PartialEq, Eq)]
pub enum Entry {
    /// Document 01: "One data transfer: ... ATN released throughout."
    Plain,
    /// #101: "A command recording has ATN pulled at every tick until the finish."
    Command,
}

impl Entry {
    /// Whether ATN is pulled in the ticks that the phases read.
    pub fn attention_pulled(self) -> bool {
        match self {
            Entry::Plain => false,
            Entry::Command => true,
        }
    }

    /// What a tick with the other ATN gives, before the phase's rows: 23, or 39
    /// where it isn't the finish.
    pub fn attention_moved(self) -> u32 {
        match self {
            Entry::Plain => ATTENTION,
            Entry::Command => ATTENTION_RELEASED,
        }
    }

    /// D: the offset at which (0,0) is no longer let be, and its number.
    pub fn silence_limit(self) -> (u32, u32) {
        match self {
            Entry::Plain => (END_MARK_WAIT, END_MARK_NOT_ACKNOWLEDGED),
            Entry::Command => (PLAIN_SILENCE_MOST, END_MARK_UNDER_ATTENTION),
        }
    }
}
