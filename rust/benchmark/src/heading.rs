//! What stands above the table: where, when and how it was measured.

use crate::machine;
use crate::sigrok::Sigrok;

pub fn print_heading(load_before: &str, sigrok: Option<&Sigrok>) {
    println!(
        "Measured on {}: {}, {} cores; the load average was {} before the run and {} after it.\n",
        machine::day(),
        machine::model(),
        machine::cores(),
        load_before,
        machine::load()
    );
    println!("{HOW}");
    match sigrok {
        Some(_) => println!("{SIGROK}"),
        None => println!("- sigrok-cli is not here: it was not measured."),
    }
}

const HOW: &str = "\
- Everything is from one run. In each round the programs follow one another; a figure is the median of the rounds, with
  the least and the most in brackets.
- A ratio is taken in each round, to the Rattle judge of the same round: above 1 is slower, 1/100 is a hundred times as
  fast.
- The buffers are lent once and are not cleared between passes. Before anything was measured, all three judges gave the
  same answer and left the same memory.";

const SIGROK: &str = "\
- sigrok-cli is a process that reads a dump, which bin/vcd made beforehand. Its start-up is measured in each round, on a
  recording of one tick, and taken off. It read the same bytes, complemented; it tests no time and gives no verdict.";
