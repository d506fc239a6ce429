//! Legal pairs for one entry, handed to the other: as they are, and with ATN turned over at every tick.

use crate::case::{Case, Expected};
use crate::classes::legal;
use crate::entry::{Entry, ATTENTION};
use parties::Random;
use station::Fault;

/// A legal pair for the entry that it is not handed to.
pub fn draw(random: &mut Random, case: &mut Case) {
    let entry = case.entry;
    case.entry = entry.other();
    legal::draw(random, case);
    case.entry = entry;
    let (mut fault, mut tick) = (entry.attention_fault(), 0);
    if random.one_in(2) {
        case.turn_over(0, u32::MAX, ATTENTION);
        case.put_file();
        (fault, tick) = match entry {
            // Commands under a released ATN are data up to the finish, where it is pulled.
            Entry::Data => (fault, case.finish()),
            Entry::Command => (Fault::EndMarkUnderAttention, end_mark(case) + 199),
        };
    }
    case.expected = Expected::Fault { fault, tick };
}

/// The tick from which the silence before the last byte of data counts: the receiver's letting go, before the acknowledgement
/// and the last hold.
fn end_mark(case: &Case) -> u32 {
    let pulls = case.pair.receiver_data.pulls();
    pulls[pulls.len() - 3].until
}
