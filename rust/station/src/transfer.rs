//! A complete data transfer: the one pass of `judge`.

use crate::Handovers;

/// A complete data transfer: the stream was finished, and some sender and receiver that keep the rules could have made the
/// recording. Only [`judge`](crate::judge) makes one: to have it is to have a pass.
#[derive(Clone, Copy, Debug, PartialEq, Eq)]
pub struct Transfer<'lent> {
    /// The bytes handed over.
    pub(crate) bytes: &'lent [u8],
    /// Two ticks for each of them.
    pub(crate) ledger: &'lent [u32],
    pub(crate) finish_tick: u32,
    pub(crate) finish_step: u32,
}

impl<'lent> Transfer<'lent> {
    /// The bytes handed over: one or more.
    #[must_use]
    pub const fn bytes(&self) -> &'lent [u8] {
        self.bytes
    }

    /// The bytes handed over, each with its two ticks.
    ///
    /// ```
    /// use station::{judge, Handover, BYTE_ROOM, LEDGER_ROOM};
    ///
    /// let recording = include_bytes!("../../../samples/s1.rec");
    /// let (mut bytes, mut ledger) = ([0; BYTE_ROOM], [0; LEDGER_ROOM]);
    /// let transfer = judge(recording, &mut bytes, &mut ledger)?;
    /// for Handover { byte, let_go, take } in transfer.handovers() {
    ///     println!("{byte:02x}, taken {} ticks after it was let go", take - let_go);
    /// }
    /// let only = Handover { byte: 0x41, let_go: 1630, take: 1660 };
    /// assert!(transfer.handovers().eq([only]));
    /// # Ok::<(), station::JudgeError>(())
    /// ```
    #[must_use]
    pub fn handovers(&self) -> Handovers<'lent> {
        Handovers::of(self.bytes, self.ledger)
    }

    /// The tick at which the stream was finished.
    #[must_use]
    pub const fn finish_tick(&self) -> u32 {
        self.finish_tick
    }

    /// The step of the recording that holds the [finish tick](Transfer::finish_tick), counted from 0.
    #[must_use]
    pub const fn finish_step(&self) -> u32 {
        self.finish_step
    }
}
