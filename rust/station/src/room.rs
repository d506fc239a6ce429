//! How much memory a caller lends, and how long a recording is.

/// The places that [`judge`](crate::judge) and [`judge_command`](crate::judge_command) ask of the byte buffer; with fewer they
/// refuse with
/// [`ShortBuffers`](crate::Refusal::ShortBuffers).
pub const BYTE_ROOM: usize = 1000;

/// The places that [`judge`](crate::judge) and [`judge_command`](crate::judge_command) ask of the ledger, two for each byte;
/// with fewer they refuse with
/// [`ShortBuffers`](crate::Refusal::ShortBuffers).
pub const LEDGER_ROOM: usize = 2000;

/// The length of the longest recording, of 16,000 steps. A file that is longer is always refused.
///
/// Not all of it need be handed over: `LONGEST_RECORDING + 1` bytes or more of its beginning are answered as the whole file
/// is. Fewer may not be: they could pass for a recording that the file is not.
pub const LONGEST_RECORDING: usize = 64_016;

/// The longest string that [`write`](crate::write) writes; a longer one it refuses with
/// [`TooManyBytes`](crate::WriteRefusal::TooManyBytes).
pub const MOST_BYTES: usize = 799;

/// The length of the recording that [`write`](crate::write) puts down for `count` bytes: `80 * count + 36`. It is also
/// what it asks of the destination.
///
/// # Panics
///
/// If the length has no room in a `usize`, far beyond the [`MOST_BYTES`] that can be written.
pub const fn written_length(count: usize) -> usize {
    match count.checked_mul(80) {
        Some(steps) => match steps.checked_add(36) {
            Some(length) => length,
            None => panic!("a string this long has no recording"),
        },
        None => panic!("a string this long has no recording"),
    }
}
