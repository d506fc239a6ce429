//! "*The shown pair* is read off the recording and the ledger" (document 01, "The two parties' own rules").

use crate::timetable::clock_pulls;
use crate::{Kind, Lines, Pair, Track};

/// The pair that a plain recording shows, with a ledger of two ticks for each byte.
///
/// # Errors
///
/// If CLK is not pulled as often as that many bytes take.
pub fn shown_pair(lines: &Lines, ledger: &[u32]) -> Result<Pair, String> {
    shown(lines, ledger, Kind::Plain)
}

/// The pair that a command recording shows, with a ledger of two ticks for each byte. Its finish is the first tick with
/// ATN released.
///
/// # Errors
///
/// If CLK is not pulled as often as that many bytes take, up to the finish.
pub fn shown_command(lines: &Lines, ledger: &[u32]) -> Result<Pair, String> {
    shown(lines, ledger, Kind::command_in(lines))
}

/// The pair that a recording of this kind shows.
///
/// "CLK is the sender's; DATA pulled from the CLK pull that begins a byte's bits until that byte's letting go in the
/// ledger is the sender's, any other DATA pull is the receiver's."
///
/// A byte has nine CLK pulls, one for each set-up and one after bit 8, and there is the one that begins at tick 0: so the
/// pull that begins a byte's bits is found by counting.
pub(crate) fn shown(lines: &Lines, ledger: &[u32], kind: Kind) -> Result<Pair, String> {
    let pulls = clock_pulls(&lines.clock, ledger.len() / 2, kind)?;
    let mut sender_parts = Track::new();
    for (byte, ticks) in ledger.chunks_exact(2).enumerate() {
        sender_parts.add(pulls[9 * byte + 1].from, ticks[0]);
    }
    Ok(Pair {
        clock: lines.clock.clone(),
        sender_data: lines.data.inside(&sender_parts),
        receiver_data: lines.data.outside(&sender_parts),
        service_request: Track::new(),
        kind,
        total: lines.total,
    })
}
