//! How often each number came up, and what was different.

use crate::classes::CLASSES;
use crate::entry::Entry;
use crate::fell::Fell;
use station::{WriteRefusal, WRITTEN};
use std::collections::HashMap;
use trials::numbers;

/// From how many cases on every number must have come up, and every place of a mark.
const ENOUGH: u64 = 10_000;

/// Who answered.
#[derive(Clone, Copy, PartialEq, Eq)]
enum By {
    Entry(Entry),
    Writer,
}

/// Everyone, in the order of the columns.
const ALL: [By; 3] = [
    By::Entry(Entry::Data),
    By::Entry(Entry::Command),
    By::Writer,
];

impl By {
    fn name(self) -> &'static str {
        match self {
            By::Entry(entry) => entry.name(),
            By::Writer => "written",
        }
    }

    /// Whether this may be answered.
    fn gives(self, number: u32) -> bool {
        let writers = number == WRITTEN || WriteRefusal::try_from(number).is_ok();
        match self {
            By::Entry(entry) => !writers && entry.gives(number),
            By::Writer => writers,
        }
    }
}

/// The counts of a run.
#[derive(Default)]
pub struct Tally {
    /// How often each number came up, by the columns.
    numbers: HashMap<u32, [u64; ALL.len()]>,
    classes: [u64; CLASSES.len()],
    /// How often the first mark fell where, by the entries.
    marks: [[u64; Entry::ALL.len()]; Fell::ALL.len()],
    /// How many shown pairs were held to the parties' rules.
    pub shown_pairs: u64,
    /// How many command bytes have different classes.
    pub classes_differ: u64,
    /// How many cases had a difference.
    pub differences: u64,
}

impl Tally {
    /// Counts a case of a class.
    pub fn count_case(&mut self, class: usize) {
        self.classes[class] += 1;
    }

    /// Counts an answer of the library's judge by this entry.
    pub fn count_judged(&mut self, entry: Entry, number: u32) {
        self.count(By::Entry(entry), number);
    }

    /// Counts a recording for this entry by where its first mark fell.
    pub fn count_mark(&mut self, entry: Entry, fell: Option<Fell>) {
        for (times, one) in self.marks.iter_mut().zip(Fell::ALL) {
            for (times, by) in times.iter_mut().zip(Entry::ALL) {
                *times += u64::from(fell == Some(one) && by == entry);
            }
        }
    }

    /// Counts an answer of the library's writer.
    pub fn count_written(&mut self, number: u32) {
        self.count(By::Writer, number);
    }

    fn count(&mut self, by: By, number: u32) {
        let times = self.numbers.entry(number).or_default();
        for (place, one) in ALL.into_iter().enumerate() {
            times[place] += u64::from(one == by);
        }
    }

    /// How often a number came up, by the columns.
    fn times(&self, number: u32) -> [u64; ALL.len()] {
        self.numbers.get(&number).copied().unwrap_or_default()
    }

    /// The sum of each column.
    fn totals(&self) -> [u64; ALL.len()] {
        std::array::from_fn(|place| self.numbers.values().map(|times| times[place]).sum())
    }

    /// The numbers, and the places of a mark, that never came up where they may, and where.
    fn missing(&self) -> Vec<String> {
        let mut missing = Vec::new();
        for (number, name) in numbers() {
            for (times, by) in self.times(number).into_iter().zip(ALL) {
                if times == 0 && by.gives(number) {
                    missing.push(format!("number {number} {name}, {}", by.name()));
                }
            }
        }
        for (times, fell) in self.marks.into_iter().zip(Fell::ALL) {
            for (times, entry) in times.into_iter().zip(Entry::ALL) {
                if times == 0 && fell.is_for(entry) {
                    missing.push(format!("mark {}, {}", fell.name(), entry.name()));
                }
            }
        }
        missing
    }

    /// Prints all of it; true if the run is a success.
    pub fn conclude(&self) -> bool {
        self.print_counts();
        for number in self.missing() {
            println!("{number}: did not occur");
        }
        let cases: u64 = self.classes.iter().sum();
        let too_few = cases >= ENOUGH && !self.missing().is_empty();
        let note = if too_few {
            "; NOT EVERY NUMBER OR MARK OCCURRED"
        } else {
            ""
        };
        let [data, commands, written] = self.totals();
        let differences = self.differences + self.classes_differ;
        println!(
            "{cases} cases compared: {} recordings judged, {written} strings written; {differences} differences{note}",
            data + commands
        );
        differences == 0 && !too_few
    }

    fn print_counts(&self) {
        let names = ALL.map(|by| format!("{:>9}", by.name())).concat();
        println!("number  name                     {names}");
        for (number, name) in numbers() {
            let times = self.times(number).map(|times| format!("{times:>9}"));
            println!("{number:>6}  {name:<25}{}", times.concat());
        }
        for (times, fell) in self.marks.into_iter().zip(Fell::ALL) {
            let times = times.map(|times| format!("{times:>9}"));
            println!("  mark  {:<25}{}", fell.name(), times.concat());
        }
        for (class, times) in CLASSES.iter().zip(self.classes) {
            println!("class {:<12} {times:>8} cases", class.name);
        }
        println!(
            "256 command bytes compared: {} have different classes",
            self.classes_differ
        );
        let pairs = self.shown_pairs;
        println!("{pairs} shown pairs held to the two parties' rules");
    }
}
