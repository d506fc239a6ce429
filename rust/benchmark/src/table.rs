//! The figures as a table in Markdown.

use crate::figures::{digits, grouped, part, time};
use crate::recordings::Recording;
use crate::spread::Spread;
use crate::timing::Measured;

pub fn print_head() {
    println!("\n| Recording | Program | One recording | ns per tick | Ratio |");
    println!("|---|---|---|---|---|");
}

/// A row for each program, the first one with what the recording is.
pub fn rows(recording: &Recording, measured: &[Measured]) -> Vec<String> {
    let mut what = format!(
        "{}: {} steps, {} ticks; {} rounds",
        recording.name,
        grouped(recording.steps()),
        grouped(recording.ticks() as usize),
        recording.rounds
    );
    if let Some(passes) = recording.passes {
        what += &format!(" of {} passes", grouped(passes as usize));
    }
    let mut rows = Vec::new();
    for one in measured {
        rows.push(row(&what, recording, one, &measured[0]));
        what.clear();
    }
    rows
}

fn row(what: &str, recording: &Recording, one: &Measured, first: &Measured) -> String {
    let (seconds, name) = match without_start_up(one) {
        Some((seconds, start_up)) => (seconds, format!("{}, start-up {start_up}", one.name)),
        None => (one.seconds.clone(), one.name.clone()),
    };
    if seconds.is_empty() {
        return format!("| {what} | {name} | no more than its start-up | - | - |");
    }
    let spread = Spread::of(&seconds);
    let per_tick = spread.median * 1e9 / f64::from(recording.ticks());
    format!(
        "| {what} | {name} | {} | {} | {} |",
        time(&spread),
        digits(per_tick),
        ratio(&seconds, &first.seconds)
    )
}

/// A process's times with its start-up taken off, round by round, and the start-up. What is left says nothing where it is within the
/// start-up's own spread: then there are no times.
fn without_start_up(one: &Measured) -> Option<(Vec<f64>, String)> {
    if one.start_ups.is_empty() {
        return None;
    }
    let start_up = Spread::of(&one.start_ups);
    let rounds = one.seconds.iter().zip(&one.start_ups);
    let mut left: Vec<f64> = rounds.map(|(all, start_up)| all - start_up).collect();
    if Spread::of(&left).median <= start_up.most - start_up.least {
        left.clear();
    }
    Some((left, time(&start_up)))
}

/// How many times as long as the first, in the same rounds.
fn ratio(seconds: &[f64], first: &[f64]) -> String {
    let rounds = seconds.iter().zip(first);
    let ratios: Vec<f64> = rounds.map(|(one, first)| one / first).collect();
    let spread = Spread::of(&ratios);
    if spread.least == spread.most {
        return part(spread.median);
    }
    let [median, least, most] = [spread.median, spread.least, spread.most].map(part);
    format!("{median} ({least}..{most})")
}
