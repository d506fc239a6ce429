//! The three judges, called alike, and the memory that they are lent.

use crate::by_ticks;
use by_steps::Answer;
use station::{BYTE_ROOM, LEDGER_ROOM};

pub struct Judge {
    pub name: &'static str,
    pub judge: fn(&[u8], &mut [u8], &mut [u32]) -> Answer,
}

/// The first is the one that the others are compared with.
pub const JUDGES: [Judge; 3] = [
    Judge {
        name: "the Rattle judge, through `station`",
        judge: trials::judge,
    },
    Judge {
        name: "`by_ticks`, plain Rust",
        judge: by_ticks::judge,
    },
    Judge {
        name: "`by_steps`, plain Rust",
        judge: by_steps::judge,
    },
];

/// The buffers of one judge.
#[derive(PartialEq)]
pub struct Lent {
    pub bytes: [u8; BYTE_ROOM],
    pub ledger: [u32; LEDGER_ROOM],
}

impl Lent {
    /// Filled with values that no recording here leaves, so that it shows which places were written.
    pub fn new() -> Self {
        Lent {
            bytes: [0xA5; BYTE_ROOM],
            ledger: [u32::MAX; LEDGER_ROOM],
        }
    }
}
