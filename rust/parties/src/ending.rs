//! How a transfer ends, as spans.

/// What comes after the last byte.
#[derive(Clone, Debug, Default, PartialEq, Eq)]
pub enum Ending {
    /// Document 01: the sender releases CLK, the receiver lets go, and there is silence.
    #[default]
    Plain,
    /// Request #101: the finish, in whose tick both still hold their lines, and then these stretches.
    Command(Vec<Stretch>),
}

/// Ticks after a command's finish, all alike. Nothing binds there: who pulls what is free. ATN stays released.
#[derive(Clone, Copy, Debug, Default, PartialEq, Eq)]
pub struct Stretch {
    /// How many.
    pub ticks: u32,
    /// Whether the sender pulls CLK.
    pub clock: bool,
    /// Whether the sender pulls DATA.
    pub sender_data: bool,
    /// Whether the receiver pulls DATA.
    pub receiver_data: bool,
    /// Whether anybody pulls SRQ.
    pub service_request: bool,
}
