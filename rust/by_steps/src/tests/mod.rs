//! Tests computed by hand from documents 01 and 02. They use the crate as its
//! users do.

mod classes;
mod command;
mod finish;
mod overruns;
mod overruns_beside_others;
mod plain;
mod recordings;
mod refusals;
