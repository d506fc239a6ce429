//! The numbers: by value, by name, in words, and as the repository's table has them.

use station::{CommandClass, Fault, Refusal, TrayRefusal, UnknownNumber, WriteRefusal};
use station::{COMPLETE, WRITTEN};
use std::fmt::{Debug, Display};
use std::str::FromStr;

/// The file with the repository's table of numbers.
const TABLE: &str = include_str!("../../../docs/RULES.md");

/// The table's rows: number, name, and who refused, if it is a refusal.
fn rows() -> Vec<(u32, &'static str, &'static str)> {
    let row = |line: &'static str| {
        let mut cells = line.split('|').map(|cell| cell.trim().trim_matches('*'));
        let number = cells.nth(1)?.parse().ok()?;
        let (name, says) = (cells.next()?, cells.next()?);
        let refused = says
            .split(':')
            .next()
            .filter(|who| who.starts_with("refused"));
        Some((number, name, refused.unwrap_or_default()))
    };
    let mut rows: Vec<_> = TABLE.lines().filter_map(row).collect();
    rows.sort();
    rows
}

#[test]
fn the_numbers_are_those_of_the_table() {
    let mut all = vec![(COMPLETE, "complete", ""), (WRITTEN, "written", "")];
    all.extend(Fault::ALL.iter().map(|one| (one.number(), one.name(), "")));
    all.extend(
        Refusal::ALL
            .iter()
            .map(|one| (one.number(), one.name(), "refused")),
    );
    let by_the_writer = |one: &WriteRefusal| (one.number(), one.name(), "refused by the writer");
    all.extend(WriteRefusal::ALL.iter().map(by_the_writer));
    let by_the_tray = |one: &TrayRefusal| (one.number(), one.name(), "refused by the tray");
    all.extend(TrayRefusal::ALL.iter().map(by_the_tray));
    all.sort();
    assert_eq!(all, rows());
}

/// Each number is found by its value and its name, and nothing else is found.
fn find<N>(all: &[N], group: &str, number: fn(N) -> u32)
where
    N: Copy + Debug + Display + PartialEq,
    N: FromStr<Err = UnknownNumber> + TryFrom<u32, Error = UnknownNumber>,
{
    for &one in all {
        assert_eq!(N::try_from(number(one)), Ok(one));
        assert_eq!(one.to_string().parse(), Ok(one));
        assert_eq!(format!("{one:<30}|"), format!("{:<30}|", one.to_string()));
    }
    for value in (0..300).filter(|value| all.iter().all(|one| number(*one) != *value)) {
        let error = N::try_from(value).unwrap_err();
        assert_eq!(
            error.to_string(),
            format!("no {group} has the number {value}")
        );
    }
    for name in ["complete", "written", "", "Cut", "cut ", "22"] {
        let error: Box<dyn std::error::Error> = N::from_str(name).unwrap_err().into();
        assert_eq!(error.to_string(), format!("no {group} has that name"));
    }
}

#[test]
fn a_number_is_found_by_its_value_and_its_name() {
    find(Fault::ALL, "fault", Fault::number);
    find(Refusal::ALL, "refusal of the judge", Refusal::number);
    find(
        WriteRefusal::ALL,
        "refusal of the writer",
        WriteRefusal::number,
    );
    find(TrayRefusal::ALL, "refusal of the tray", TrayRefusal::number);
    find(
        CommandClass::ALL,
        "class of command bytes",
        CommandClass::number,
    );
}

#[test]
fn the_version_is_that_of_the_repository() {
    let version = format!("{}\n", station::VERSION);
    assert_eq!(version, include_str!("../../../VERSION"));
}
