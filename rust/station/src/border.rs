//! The border to the proved library, and the only `unsafe` code: four functions of C's calling convention.
//!
//! Rattle's slices cross as a pointer and a count of elements, and its answer as a struct of four 32-bit numbers. That
//! these declarations are what the archive has is not proved; the crate `trials` tries it.

#![allow(unsafe_code)]

/// An answer as it crosses: four numbers of 32 bits, in this order.
#[repr(C)]
#[derive(Clone, Copy)]
pub(crate) struct StationAnswer {
    pub(crate) number: u32,
    pub(crate) tick: u32,
    pub(crate) step: u32,
    pub(crate) count: u32,
}

extern "C" {
    fn station_judge(
        file: *const u8,
        file_length: usize,
        bytes: *mut u8,
        bytes_length: usize,
        ledger: *mut u32,
        ledger_length: usize,
    ) -> StationAnswer;

    fn station_judge_command(
        file: *const u8,
        file_length: usize,
        bytes: *mut u8,
        bytes_length: usize,
        ledger: *mut u32,
        ledger_length: usize,
    ) -> StationAnswer;

    fn station_command_class(byte: u8) -> u32;

    fn station_write(
        bytes: *const u8,
        bytes_length: usize,
        destination: *mut u8,
        destination_length: usize,
    ) -> StationAnswer;
}

/// The library's judges, which are lent the same.
#[derive(Clone, Copy)]
pub(crate) enum Entry {
    Data,
    Command,
}

/// Lends the three slices to the library for one call.
pub(crate) fn judge(
    entry: Entry,
    file: &[u8],
    bytes: &mut [u8],
    ledger: &mut [u32],
) -> StationAnswer {
    let judge = match entry {
        Entry::Data => station_judge,
        Entry::Command => station_judge_command,
    };
    // SAFETY: each pointer and length is of one live slice, aligned for its elements and not null even where it is
    // empty; the two that are written are borrowed for this call alone, so nothing overlaps; the library keeps none of
    // them, takes no memory, and is proved to read and write inside them only.
    unsafe {
        judge(
            file.as_ptr(),
            file.len(),
            bytes.as_mut_ptr(),
            bytes.len(),
            ledger.as_mut_ptr(),
            ledger.len(),
        )
    }
}

/// The number of a command byte's class.
pub(crate) fn command_class(byte: u8) -> u32 {
    // SAFETY: it takes any byte, and no memory.
    unsafe { station_command_class(byte) }
}

/// Lends the two slices to the library for one call.
pub(crate) fn write(bytes: &[u8], destination: &mut [u8]) -> StationAnswer {
    // SAFETY: as above: two live slices, the written one borrowed for this call alone, and the library is proved to stay
    // inside them.
    unsafe {
        station_write(
            bytes.as_ptr(),
            bytes.len(),
            destination.as_mut_ptr(),
            destination.len(),
        )
    }
}
