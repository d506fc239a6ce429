//! The kind of a recording, as a value: which rules end the pair, and what ATN does.

use crate::{Lines, Track};

/// What a recording is of.
#[derive(Clone, Copy, Debug, Default, PartialEq, Eq)]
pub enum Kind {
    /// Data, as in document 01: ATN is released, and an end mark comes before the last byte's bits.
    #[default]
    Plain,
    /// A command, as in request #101: no end mark, and ATN says where it ends.
    Command {
        /// The first tick with ATN released.
        finish: u32,
    },
}

impl Kind {
    /// The kind of a command recording: its finish is read off ATN.
    pub(crate) fn command_in(lines: &Lines) -> Kind {
        let finish = lines.finish();
        Kind::Command { finish }
    }

    /// The ticks at which ATN is pulled: none, or in a command "until the finish".
    #[must_use]
    pub fn attention(self) -> Track {
        let mut track = Track::new();
        if let Kind::Command { finish } = self {
            track.add(0, finish);
        }
        track
    }

    /// Whether the last byte has the end mark.
    pub(crate) fn has_end_mark(self) -> bool {
        self == Kind::Plain
    }

    /// The first tick in which the lines are free: that after the finish, for "what CLK and DATA show after it binds
    /// nobody". A plain recording has none.
    pub(crate) fn free_from(self) -> u32 {
        match self {
            Kind::Plain => u32::MAX,
            Kind::Command { finish } => finish.saturating_add(1),
        }
    }
}
