//! A case in words.

use crate::case::Case;
use crate::classes::{Kind, CLASSES};
use crate::outcome::Outcome;
use trials::name_of;

/// The most steps that are printed.
const MOST: usize = 40;

/// How a case is called, and made again.
#[derive(Clone, Copy)]
pub struct Name {
    /// Its own seed.
    pub seed: u64,
    /// The place of its class in the list.
    pub class: usize,
}

/// Prints a case: its name, both answers, what was wrong, and its steps.
pub fn print(name: Name, case: &Case, what: &str, outcome: &Outcome) {
    let class = &CLASSES[name.class];
    let (ours, other) = (&outcome.answer, &outcome.other);
    let entry = case.entry.name();
    println!(
        "differential --case {} {}: {what}, entry for {entry}",
        name.seed, class.name
    );
    if let Err(wrong) = &outcome.wrong {
        println!("  DIFFERENT: {wrong}");
    }
    println!(
        "  library  {} {} {} {} {}",
        ours.number,
        ours.tick,
        ours.step,
        ours.count,
        name_of(ours.number)
    );
    println!(
        "  by_steps {} {} {} {}",
        other.number, other.tick, other.step, other.count
    );
    if class.kind == Kind::Writing {
        println!(
            "  {} bytes, destination {}",
            case.string.len(),
            case.destination
        );
    }
    print_file(&case.file);
}

/// Prints a recording: its length, its header and its first steps, as far as it has them.
fn print_file(file: &[u8]) {
    let header = &file[..file.len().min(16)];
    println!("  file of {} bytes, header {header:02X?}", file.len());
    let steps = file.get(16..).unwrap_or_default();
    let mut text = String::new();
    for step in steps.chunks_exact(4).take(MOST) {
        let duration = u16::from_le_bytes([step[0], step[1]]);
        text += &format!(" {duration}:{}", step[2]);
        if step[3] != 0 {
            text += &format!("!{}", step[3]);
        }
    }
    let more = if steps.len() > 4 * MOST { " .." } else { "" };
    println!("  steps{text}{more}");
}
