//! The command entry as a program uses it: a pass, faults, refusals, both entries on the same recordings, and the classes.

use station::{judge, judge_command, CommandClass, Fault, Handover, JudgeError, Refusal};
use station::{BYTE_ROOM, LEDGER_ROOM};

/// What the lent places hold before a call.
const BYTES: [u8; BYTE_ROOM] = [0xA5; BYTE_ROOM];
const LEDGER: [u32; LEDGER_ROOM] = [7; LEDGER_ROOM];

/// LISTEN 8, secondary 15.
const ADDRESSED: &[u8] = include_bytes!("../../../samples/commands/drive-addressed.rec");
const S1: &[u8] = include_bytes!("../../../samples/s1.rec");

/// The file with the repository's table of classes.
const TABLE: &str = include_str!("../../../docs/RULES.md");

#[test]
fn a_pass_has_the_bytes_their_ticks_and_their_classes() {
    let (mut bytes, mut ledger) = (BYTES, LEDGER);
    let commands = judge_command(ADDRESSED, &mut bytes, &mut ledger).unwrap();
    assert_eq!(commands.bytes(), [0x28, 0x6F]);
    assert_eq!((commands.finish_tick(), commands.finish_step()), (2960, 41));
    let handover = |byte, let_go, take| Handover { byte, let_go, take };
    let due = [handover(0x28, 1350, 1380), handover(0x6F, 2730, 2760)];
    assert!(commands.handovers().eq(due));
    let classes = commands.classes();
    assert_eq!(classes.len(), 2);
    let backwards = [CommandClass::Secondary, CommandClass::Listen];
    assert!(classes.rev().eq(backwards));
    assert_eq!((&bytes[2..], &ledger[4..]), (&BYTES[2..], &LEDGER[4..]));
}

#[test]
fn a_fault_after_a_byte_leaves_the_byte_and_is_an_error() {
    let (mut bytes, mut ledger) = (BYTES, LEDGER);
    let recording = include_bytes!("../../../samples/commands/silence-200.rec");
    let error = judge_command(recording, &mut bytes, &mut ledger).unwrap_err();
    let due = JudgeError::Fault {
        fault: Fault::EndMarkUnderAttention,
        tick: 1829,
        step: 22,
        count: 1,
    };
    assert_eq!(error, due);
    assert_eq!((bytes[0], &ledger[..2]), (0x28, &[1350, 1380][..]));
    assert_eq!((&bytes[1..], &ledger[2..]), (&BYTES[1..], &LEDGER[2..]));
}

#[test]
fn a_mark_before_the_handover_leaves_out_the_byte_that_waits() {
    let (mut bytes, mut ledger) = (BYTES, LEDGER);
    for (step, tick, count) in [(0, 0, 0), (21, 1580, 0), (22, 1630, 1), (41, 2960, 1)] {
        let mut recording = ADDRESSED.to_vec();
        recording[16 + 4 * step as usize + 3] = 1;
        let due = JudgeError::Fault {
            fault: Fault::Overrun,
            tick,
            step,
            count,
        };
        let judged = judge_command(&recording, &mut bytes, &mut ledger);
        assert_eq!(judged, Err(due));
    }
    assert_eq!((bytes[0], &ledger[..2]), (0x28, &[1350, 1380][..]));
    assert_eq!((&bytes[1..], &ledger[2..]), (&BYTES[1..], &LEDGER[2..]));
}

#[test]
fn a_refusal_changes_nothing() {
    let (mut bytes, mut ledger) = (BYTES, LEDGER);
    let mut stray = ADDRESSED.to_vec();
    stray[16 + 4 * 3 + 3] = 2;
    let refused = |refusal, step| Err(JudgeError::Refusal { refusal, step });
    assert_eq!(
        judge_command(&stray, &mut bytes, &mut ledger),
        refused(Refusal::StrayBits, 3)
    );
    let short = &mut bytes[..BYTE_ROOM - 1];
    assert_eq!(
        judge_command(ADDRESSED, short, &mut ledger),
        refused(Refusal::ShortBuffers, 0)
    );
    assert_eq!((bytes, ledger), (BYTES, LEDGER));
}

#[test]
fn a_recording_at_the_wrong_entry_is_an_error_at_its_first_tick() {
    let at_once = |fault| JudgeError::Fault {
        fault,
        tick: 0,
        step: 0,
        count: 0,
    };
    let (mut bytes, mut ledger) = (BYTES, LEDGER);
    let data = judge_command(S1, &mut bytes, &mut ledger);
    assert_eq!(data, Err(at_once(Fault::AttentionReleased)));
    let commands = judge(ADDRESSED, &mut bytes, &mut ledger);
    assert_eq!(commands, Err(at_once(Fault::Attention)));
    assert_eq!((bytes, ledger), (BYTES, LEDGER));
}

/// The bytes of a row's first cell: one, from one to another, or none that is named.
fn range(cell: &str) -> Option<(u8, u8)> {
    let byte = |text: &str| u8::from_str_radix(text.strip_prefix("0x")?, 16).ok();
    let (from, to) = cell.split_once('-').unwrap_or((cell, cell));
    Some((byte(from)?, byte(to)?))
}

#[test]
fn every_byte_has_the_class_of_the_table() {
    let mut due = [(0, "other"); 256];
    let mut rows = 0;
    for line in TABLE.lines() {
        let cells: Vec<&'static str> = line.split('|').map(str::trim).collect();
        let [_, first, class, number, ..] = cells[..] else {
            continue;
        };
        if let (Some((from, to)), Ok(number)) = (range(first), number.parse()) {
            due[from as usize..=to as usize].fill((number, class));
            rows += 1;
        }
    }
    assert_eq!(rows, CommandClass::ALL.len() - 1);
    for byte in 0..=255 {
        let class = CommandClass::of(byte);
        assert_eq!(
            (class.number(), class.name()),
            due[byte as usize],
            "{byte:#04x}"
        );
    }
}
