//! The bytes handed over, each with its two ticks.

use core::iter::{FusedIterator, Zip};
use core::slice::Iter;

/// A byte handed over, and when. One tick is 1 µs, and the first tick of a recording is 0.
#[derive(Clone, Copy, Debug, PartialEq, Eq, Hash)]
pub struct Handover {
    /// The byte.
    pub byte: u8,
    /// The tick at which the sender let go of DATA.
    pub let_go: u32,
    /// The tick at which the receiver took DATA.
    pub take: u32,
}

/// One [`Handover`] after another.
#[derive(Clone, Debug)]
pub struct Handovers<'lent>(Zip<Iter<'lent, u8>, Iter<'lent, [u32; 2]>>);

impl<'lent> Handovers<'lent> {
    /// Of the bytes and the ledger that a judgement left, two places of the ledger for each byte.
    pub(crate) fn of(bytes: &'lent [u8], ledger: &'lent [u32]) -> Self {
        let (ticks, _) = ledger.as_chunks();
        Handovers(bytes.iter().zip(ticks))
    }
}

fn handover((&byte, &[let_go, take]): (&u8, &[u32; 2])) -> Handover {
    Handover { byte, let_go, take }
}

impl Iterator for Handovers<'_> {
    type Item = Handover;

    fn next(&mut self) -> Option<Handover> {
        self.0.next().map(handover)
    }

    fn size_hint(&self) -> (usize, Option<usize>) {
        self.0.size_hint()
    }
}

impl DoubleEndedIterator for Handovers<'_> {
    fn next_back(&mut self) -> Option<Handover> {
        self.0.next_back().map(handover)
    }
}

impl ExactSizeIterator for Handovers<'_> {}
impl FusedIterator for Handovers<'_> {}
