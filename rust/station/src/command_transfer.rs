//! A complete command transfer: the pass of the command entry.

use crate::{CommandClass, Handovers, Transfer};
use core::iter::FusedIterator;

/// A complete command transfer: ATN was pulled until the commands were finished, and some sender and receiver that keep the
/// rules could have made the recording. Only [`judge_command`](crate::judge_command) makes one: to have it is to have a pass.
///
/// It is no [`Transfer`], which says that *data* was transferred: what takes one as a drive's pass does not take the other.
///
/// ```compile_fail
/// fn ship(data: station::Transfer) {}
/// fn addressed(commands: station::CommandTransfer) {
///     ship(commands);
/// }
/// ```
#[derive(Clone, Copy, Debug, PartialEq, Eq)]
pub struct CommandTransfer<'lent>(pub(crate) Transfer<'lent>);

impl<'lent> CommandTransfer<'lent> {
    /// The command bytes handed over: one or more.
    #[must_use]
    pub const fn bytes(&self) -> &'lent [u8] {
        self.0.bytes()
    }

    /// What each of the [bytes](CommandTransfer::bytes) means, in their order.
    ///
    /// ```
    /// use station::{judge_command, BYTE_ROOM, LEDGER_ROOM};
    ///
    /// let recording = include_bytes!("../../../samples/commands/drive-addressed.rec");
    /// let (mut bytes, mut ledger) = ([0; BYTE_ROOM], [0; LEDGER_ROOM]);
    /// let commands = judge_command(recording, &mut bytes, &mut ledger)?;
    /// for (byte, class) in commands.bytes().iter().zip(commands.classes()) {
    ///     println!("{byte:02x} {class}");
    /// }
    /// let words: Vec<String> = commands.classes().map(|class| class.to_string()).collect();
    /// assert_eq!(words, ["listen", "secondary"]);
    /// # Ok::<(), station::JudgeError>(())
    /// ```
    #[must_use]
    pub fn classes(
        &self,
    ) -> impl DoubleEndedIterator<Item = CommandClass> + ExactSizeIterator + FusedIterator + Clone + 'lent
    {
        self.bytes().iter().map(|byte| CommandClass::of(*byte))
    }

    /// The command bytes handed over, each with its two ticks.
    #[must_use]
    pub fn handovers(&self) -> Handovers<'lent> {
        self.0.handovers()
    }

    /// The tick at which the commands were finished: the first with ATN released.
    #[must_use]
    pub const fn finish_tick(&self) -> u32 {
        self.0.finish_tick()
    }

    /// The step of the recording that holds the [finish tick](CommandTransfer::finish_tick), counted from 0.
    #[must_use]
    pub const fn finish_step(&self) -> u32 {
        self.0.finish_step()
    }
}
