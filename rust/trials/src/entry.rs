//! The entry that a recording is handed to. It is part of a case.

use by_steps::Answer;
use station::Fault;

/// A judge: lent a recording, a byte buffer and a ledger, it answers.
pub type Judge = fn(&[u8], &mut [u8], &mut [u32]) -> Answer;

/// The ATN bit of a step's lines.
pub const ATTENTION: u8 = 1;

/// One of the judge's entries.
#[derive(Clone, Copy, Debug, Default, PartialEq, Eq)]
pub enum Entry {
    /// For data transfers, document 01's.
    #[default]
    Data,
    /// For command transfers, request #101's.
    Command,
}

/// Faults that document 01 has and #101 does not: "without 23 and end mark".
const OF_DATA: [Fault; 7] = [
    Fault::EmptyStream,
    Fault::Attention,
    Fault::EndMarkNotAcknowledged,
    Fault::AcknowledgementShort,
    Fault::AcknowledgementLong,
    Fault::LateClock,
    Fault::SenderTimeOut,
];
/// Faults that #101 adds.
const OF_COMMANDS: [Fault; 2] = [Fault::EndMarkUnderAttention, Fault::AttentionReleased];

impl Entry {
    /// Both.
    pub const ALL: [Entry; 2] = [Entry::Data, Entry::Command];

    /// Its name, as the program prints it.
    pub fn name(self) -> &'static str {
        match self {
            Entry::Data => "data",
            Entry::Command => "commands",
        }
    }

    /// The other one.
    pub fn other(self) -> Entry {
        match self {
            Entry::Data => Entry::Command,
            Entry::Command => Entry::Data,
        }
    }

    /// The library's judge.
    pub fn judge(self) -> Judge {
        match self {
            Entry::Data => trials::judge,
            Entry::Command => trials::judge_command,
        }
    }

    /// The judge that it is compared with.
    pub fn other_judge(self) -> Judge {
        match self {
            Entry::Data => by_steps::judge,
            Entry::Command => by_steps::judge_command,
        }
    }

    /// What its recordings show of ATN from tick 0 on.
    pub fn attention(self) -> u8 {
        match self {
            Entry::Data => 0,
            Entry::Command => ATTENTION,
        }
    }

    /// What it is if ATN moves where it may not.
    pub fn attention_fault(self) -> Fault {
        match self {
            Entry::Data => Fault::Attention,
            Entry::Command => Fault::AttentionReleased,
        }
    }

    /// Whether it may answer with this number of the judge's.
    pub fn gives(self, number: u32) -> bool {
        let foreign: &[Fault] = match self {
            Entry::Data => &OF_COMMANDS,
            Entry::Command => &OF_DATA,
        };
        foreign.iter().all(|fault| fault.number() != number)
    }
}
