//! The words of demand 3 on the shown pair: "It is a pair for the string, it gives the recording, and its two ticks for
//! each byte are the ledger's." (document 01, "The two parties' own rules") And request #103's: "some pair exists and no
//! step is marked".

use crate::rules::check_pair;
use crate::shown::shown;
use crate::timetable::Timetable;
use crate::{Kind, Lines, Pair, Track};

/// Makes the shown pair off a plain recording and a ledger of two ticks for each byte of the string, and holds it to all
/// that demand 3 says of it.
///
/// # Errors
///
/// What does not hold, with the byte (counted from 0) and the tick.
pub fn check_shown_pair(recording: &[u8], string: &[u8], ledger: &[u32]) -> Result<(), String> {
    let lines = Lines::read(recording)?;
    check_shown(&lines, string, ledger, Kind::Plain)
}

/// The same for a command recording: demand 3 as request #101 words it. The finish is the first tick with ATN released.
///
/// # Errors
///
/// What does not hold, with the byte (counted from 0) and the tick.
pub fn check_shown_command(recording: &[u8], string: &[u8], ledger: &[u32]) -> Result<(), String> {
    let lines = Lines::read(recording)?;
    check_shown(&lines, string, ledger, Kind::command_in(&lines))
}

/// For a recording of this kind. Marks come first, for what is shown after lost ticks is not known; then ATN: where it is
/// wrong, it is not known which ticks bind.
fn check_shown(lines: &Lines, string: &[u8], ledger: &[u32], kind: Kind) -> Result<(), String> {
    if ledger.len() != 2 * string.len() {
        return Err("the ledger has two ticks for each byte".to_string());
    }
    check_unmarked(lines)?;
    check_attention(kind, lines)?;
    let pair = shown(lines, ledger, kind)?;
    check_pair(&pair, string)?;
    check_given(&pair, lines)?;
    check_ticks(&pair, string, ledger)
}

/// Request #103: "Demand 3 then reads: some pair exists and no step is marked." This is the second half. It is no rule of a
/// party and no matter of which pair gives the recording: a marked one is explained by no pair, whatever its lines show.
///
/// # Errors
///
/// The first tick of the first marked step.
pub fn check_unmarked(lines: &Lines) -> Result<(), String> {
    match lines.first_mark {
        None => Ok(()),
        Some(tick) => Err(format!("tick {tick}: no step is marked: it is not so")),
    }
}

/// "The pair *gives* the recording if ATN is released, CLK is the sender's and DATA is pulled exactly when either pulls."
/// For a command, request #101 has other words on ATN.
///
/// # Errors
///
/// The first tick at which a line differs.
pub fn check_given(pair: &Pair, lines: &Lines) -> Result<(), String> {
    if pair.total != lines.total {
        return Err(format!(
            "the pair has {} ticks, the recording {}",
            pair.total, lines.total
        ));
    }
    let data = pair.sender_data.either(&pair.receiver_data);
    check_attention(pair.kind, lines)?;
    equal("CLK is the sender's", &pair.clock, &lines.clock)?;
    equal(
        "DATA is pulled exactly when either pulls",
        &data,
        &lines.data,
    )
}

/// Whether ATN is what the kind says.
fn check_attention(kind: Kind, lines: &Lines) -> Result<(), String> {
    let rule = match kind {
        Kind::Plain => "ATN is released",
        Kind::Command { .. } => "ATN is pulled until the finish and released from it on",
    };
    equal(rule, &kind.attention(), &lines.attention)
}

/// Whether two tracks are the same at every tick.
fn equal(rule: &str, one: &Track, two: &Track) -> Result<(), String> {
    if one == two {
        return Ok(());
    }
    match one.first_difference(two) {
        None => Ok(()),
        Some(tick) => Err(format!("tick {tick}: {rule}: it is not so")),
    }
}

/// "its two ticks for each byte are the ledger's": "the sender's letting go of DATA after bit 8 (where that bit is zero, it
/// stands as offset 0) and the receiver's take".
fn check_ticks(pair: &Pair, string: &[u8], ledger: &[u32]) -> Result<(), String> {
    let table = Timetable::new(pair, string)?;
    for (byte, ticks) in ledger.chunks_exact(2).enumerate() {
        let (let_go, take) = (table.let_go(byte), table.take(byte));
        if let_go != Some(ticks[0]) || take != ticks[1] {
            return Err(format!(
                "byte {byte}, tick {}: its two ticks are the ledger's: let go {let_go:?} and take {take}, not {ticks:?}",
                ticks[0]
            ));
        }
    }
    Ok(())
}
