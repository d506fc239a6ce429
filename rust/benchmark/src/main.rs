//! Measures the proved judge beside two judges in plain Rust and sigrok's decoder, all in one run, and prints a table in Markdown.
//! `cargo run --release -p benchmark`, some minutes. What differs in an answer or in lent memory stops it before anything is measured.

#![forbid(unsafe_code)]

mod by_ticks;
mod figures;
mod folder;
mod heading;
mod judges;
mod machine;
mod recordings;
mod same;
mod sigrok;
mod spread;
mod table;
mod timing;

use crate::recordings::Recording;
use crate::sigrok::Sigrok;
use std::process::ExitCode;

fn main() -> ExitCode {
    match run() {
        Ok(()) => ExitCode::SUCCESS,
        Err(reason) => {
            eprintln!("benchmark: {reason}");
            ExitCode::FAILURE
        }
    }
}

fn run() -> Result<(), String> {
    if cfg!(debug_assertions) {
        return Err("built without --release, so its figures would say nothing".to_string());
    }
    let recordings = recordings::all()?;
    for recording in &recordings {
        same::require_same_answers(recording)?;
    }
    let sigrok = Sigrok::find()?;
    let load_before = machine::load();
    let rows = measure_all(&recordings, sigrok.as_ref())?;
    heading::print_heading(&load_before, sigrok.as_ref());
    table::print_head();
    for row in rows {
        println!("{row}");
    }
    Ok(())
}

fn measure_all(recordings: &[Recording], sigrok: Option<&Sigrok>) -> Result<Vec<String>, String> {
    let mut rows = Vec::new();
    for recording in recordings {
        eprintln!("measuring: {}", recording.name);
        let measured = timing::measure(recording, sigrok)?;
        rows.extend(table::rows(recording, &measured));
    }
    Ok(rows)
}
