//! The station's library in a program without `std`: it has a panic handler of its own, so that it can't be built if anything
//! brings `std` in. C's library starts and ends it.
//!
//! Exit status: 0 if a string that was written is read back and a refusal is an error.

#![no_std]
#![no_main]

use core::error::Error;
use core::panic::PanicInfo;
use station::{judge, write, written_length, BYTE_ROOM, LEDGER_ROOM};

#[link(name = "c")]
extern "C" {
    fn abort() -> !;
}

#[panic_handler]
fn stop(_: &PanicInfo) -> ! {
    // SAFETY: it takes nothing and does not return.
    unsafe { abort() }
}

/// `core`, as it is delivered, asks for it. Nothing unwinds here, so it is never called.
#[no_mangle]
extern "C" fn rust_eh_personality() {}

#[no_mangle]
extern "C" fn main() -> i32 {
    let mut recording = [0; written_length(5)];
    let (mut bytes, mut ledger) = ([0; BYTE_ROOM], [0; LEDGER_ROOM]);
    let written = write(b"HELLO", &mut recording).is_ok();
    let passed = judge(&recording, &mut bytes, &mut ledger);
    let read_back = passed.is_ok_and(|transfer| transfer.bytes() == b"HELLO");
    let refused = judge(b"", &mut bytes, &mut ledger);
    let is_error = refused.is_err_and(|error| (&error as &dyn Error).source().is_none());
    i32::from(!(written && read_back && is_error))
}
