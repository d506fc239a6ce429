//! A pair as its spans: how many ticks lie between one change and the next.
//!
//! Any spans at all can be laid out; whether they keep the rules is for the one who chooses them. Each span that document
//! 01, "The two parties' own rules", gives a window to is a field of its own.

use crate::Ending;

/// One bit of a byte.
#[derive(Clone, Copy, Debug, PartialEq, Eq)]
pub struct Bit {
    /// For how many ticks CLK is pulled.
    pub set_up: u32,
    /// For how many ticks it is then released.
    pub valid: u32,
    /// Where the sender moves DATA, counted in ticks from the CLK pull; 0 is no move. After the last move DATA shows the
    /// bit, and it changes over at each move before. "DATA free" lets moves be anywhere inside the set-up.
    pub moves: [u32; 3],
}

/// One byte of a transfer.
#[derive(Clone, Copy, Debug, PartialEq, Eq)]
pub struct Byte {
    /// The byte.
    pub value: u8,
    /// From the latest take to the sender's release of CLK.
    pub hold: u32,
    /// From there to the receiver's letting go.
    pub ready_to_send: u32,
    /// From there to the CLK pull that begins the bits; for the last byte, unless of a command, to the receiver's
    /// acknowledgement.
    pub ready_for_data: u32,
    /// Its eight bits, least significant first.
    pub bits: [Bit; 8],
    /// For how many ticks after bit 8 the sender goes on pulling DATA.
    pub keep: u32,
    /// The offset of the receiver's take, from the CLK pull after bit 8.
    pub take: u32,
}

/// A transfer of one or more bytes. Four spans are of a plain one alone: a command's lay-out passes them over.
#[derive(Clone, Debug, Default, PartialEq, Eq)]
pub struct Transfer {
    /// The tick at which the receiver first takes DATA.
    pub first_take: u32,
    /// The bytes.
    pub bytes: Vec<Byte>,
    /// How long the receiver acknowledges the end mark. Plain alone.
    pub acknowledgement: u32,
    /// From the end of that to the CLK pull that begins the last byte's bits. Plain alone.
    pub after_acknowledgement: u32,
    /// From the last take to the sender's release of CLK; of a command, to the finish.
    pub last_hold: u32,
    /// From there to the receiver's last letting go. Plain alone.
    pub last_ready_to_send: u32,
    /// How many ticks there are from the last letting go on. Plain alone.
    pub silence: u32,
    /// Whether it is plain or a command, and what comes after a command's finish.
    pub ending: Ending,
}
