//! `judge_file FILE` judges one recording. Of a pass it prints each byte with its two ticks, of anything else why it is none.
//!
//! Exit status: 0 only for a pass; 1 for any other answer; 2 for wrong usage or a file that cannot be read.

use station::{Handover, Judge, LONGEST_RECORDING};
use std::ffi::OsStr;
use std::fs::File;
use std::io::{self, Read};
use std::process::ExitCode;

/// The file's bytes. Of a file longer than any recording, one byte more than that is enough.
fn read(name: &OsStr) -> io::Result<Vec<u8>> {
    let mut recording = Vec::new();
    let mut file = File::open(name)?.take(LONGEST_RECORDING as u64 + 1);
    file.read_to_end(&mut recording)?;
    Ok(recording)
}

fn main() -> ExitCode {
    let Some(name) = std::env::args_os().nth(1) else {
        eprintln!("usage: judge_file FILE");
        return ExitCode::from(2);
    };
    let recording = match read(&name) {
        Ok(recording) => recording,
        Err(error) => {
            eprintln!("{name:?}: {error}");
            return ExitCode::from(2);
        }
    };
    match Judge::new().judge(&recording) {
        Ok(transfer) => {
            for Handover { byte, let_go, take } in transfer.handovers() {
                println!("{byte:02x} let go at {let_go}, taken at {take}");
            }
            ExitCode::SUCCESS
        }
        Err(error) => {
            eprintln!("{error}");
            ExitCode::from(1)
        }
    }
}
