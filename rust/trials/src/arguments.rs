//! What the program was asked.

use crate::classes::named;

/// How the program is used.
pub const USAGE: &str = "usage: differential [COUNT] [SEED]
       differential --case SEED CLASS

Compares the station's judge, by both of its entries, and its writer, through the border, with another judge and writer,
on COUNT drawn cases (1,000,000 if not given), and holds what they leave to the two parties' own rules. With --case it
draws one case again and prints it.

Exit status: 0 only if there was no difference and every number, and every place of a mark, came up at each entry that
has it; 1 otherwise; 2 for wrong usage.";

/// How many cases there are if it is not said.
const COUNT: u64 = 1_000_000;
/// The seed if it is not said.
const SEED: u64 = 1541;

/// What the program was asked.
#[derive(Clone, Copy, Debug, PartialEq, Eq)]
pub enum Arguments {
    /// So many cases, drawn from this seed.
    Run {
        /// How many.
        count: u64,
        /// The seed that the cases' own seeds are drawn from.
        seed: u64,
    },
    /// One case again.
    One {
        /// Its own seed.
        seed: u64,
        /// The place of its class in the list.
        class: usize,
    },
}

impl Arguments {
    /// Reads the words after the program's name. None if they make no sense.
    #[must_use]
    pub fn read(words: &[String]) -> Option<Arguments> {
        let words: Vec<&str> = words.iter().map(String::as_str).collect();
        match words[..] {
            [] => Some(run(COUNT, SEED)),
            ["--case", seed, class] => Some(Arguments::One {
                seed: number(seed)?,
                class: named(class)?,
            }),
            [count] => Some(run(some(count)?, SEED)),
            [count, seed] => Some(run(some(count)?, number(seed)?)),
            _ => None,
        }
    }
}

fn run(count: u64, seed: u64) -> Arguments {
    Arguments::Run { count, seed }
}

/// A number above 0: a run of no cases would look like a success.
fn some(word: &str) -> Option<u64> {
    number(word).filter(|count| *count > 0)
}

/// A number, with or without commas.
fn number(word: &str) -> Option<u64> {
    word.replace(',', "").parse().ok()
}

#[cfg(test)]
mod tests {
    use super::*;

    fn read(words: &str) -> Option<Arguments> {
        let words: Vec<String> = words.split_whitespace().map(String::from).collect();
        Arguments::read(&words)
    }

    #[test]
    fn what_makes_sense_is_read() {
        assert_eq!(read(""), Some(run(COUNT, SEED)));
        assert_eq!(read("200,000"), Some(run(200_000, SEED)));
        assert_eq!(read("5 7"), Some(run(5, 7)));
        assert_eq!(
            read("--case 9 legal"),
            Some(Arguments::One { seed: 9, class: 0 })
        );
    }

    #[test]
    fn what_makes_none_is_not() {
        for words in [
            "x",
            "0",
            "1 x",
            "1 2 3",
            "--case 1",
            "--case 1 nonesuch",
            "--help",
            "-1",
        ] {
            assert_eq!(read(words), None, "{words}");
        }
    }
}
