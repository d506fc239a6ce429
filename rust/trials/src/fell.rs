//! Where the first mark of a recording fell.

use crate::entry::Entry;

/// Where it fell: request #103 has it "also in E, at tick 0 and after #101's finish".
#[derive(Clone, Copy, Debug, PartialEq, Eq)]
pub enum Fell {
    /// On the first step.
    AtTick0,
    /// Before CLK was first released.
    AtTheStart,
    /// With CLK released, before a byte's bits or before the end.
    BetweenBytes,
    /// Inside the eight bits of a byte.
    InTheBits,
    /// After them, DATA not being taken yet.
    InAnOpenHandover,
    /// After them, DATA being held: the byte is not handed over yet.
    WithAByteWaiting,
    /// After the finish tick of data.
    AfterTheEnd,
    /// After the finish tick of commands.
    AfterTheFinish,
    /// After another verdict, which stands.
    AfterAVerdict,
    /// It is no mark: a last byte of 2 is refused.
    LastByte2,
    /// Nor is one of 255.
    LastByte255,
}

impl Fell {
    /// All, in the order in which they are printed.
    pub const ALL: [Fell; 11] = [
        Fell::AtTick0,
        Fell::AtTheStart,
        Fell::BetweenBytes,
        Fell::InTheBits,
        Fell::InAnOpenHandover,
        Fell::WithAByteWaiting,
        Fell::AfterTheEnd,
        Fell::AfterTheFinish,
        Fell::AfterAVerdict,
        Fell::LastByte2,
        Fell::LastByte255,
    ];

    /// Its name, as the program prints it.
    pub fn name(self) -> &'static str {
        match self {
            Fell::AtTick0 => "at tick 0",
            Fell::AtTheStart => "at the start",
            Fell::BetweenBytes => "between bytes",
            Fell::InTheBits => "in the bits",
            Fell::InAnOpenHandover => "in an open handover",
            Fell::WithAByteWaiting => "with a byte waiting",
            Fell::AfterTheEnd => "after the end",
            Fell::AfterTheFinish => "after the finish",
            Fell::AfterAVerdict => "after a verdict",
            Fell::LastByte2 => "last byte 2",
            Fell::LastByte255 => "last byte 255",
        }
    }

    /// Whether a recording for this entry may have one there.
    pub fn is_for(self, entry: Entry) -> bool {
        match self {
            Fell::AfterTheEnd => entry == Entry::Data,
            Fell::AfterTheFinish => entry == Entry::Command,
            _ => true,
        }
    }
}
