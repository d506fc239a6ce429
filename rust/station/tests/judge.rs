//! The judge as a program uses it: a pass, faults, refusals, and what each leaves in lent memory.

use station::{judge, write, written_length, Fault, Handover, JudgeError, Refusal};
use station::{BYTE_ROOM, LEDGER_ROOM, LONGEST_RECORDING};

/// What the lent places hold before a call.
const BYTES: [u8; BYTE_ROOM] = [0xA5; BYTE_ROOM];
const LEDGER: [u32; LEDGER_ROOM] = [7; LEDGER_ROOM];

#[test]
fn a_pass_has_the_bytes_and_the_ticks_that_were_left() {
    let (mut bytes, mut ledger) = (BYTES, LEDGER);
    let mut recording = [0; written_length(5)];
    write(b"HELLO", &mut recording).unwrap();
    let transfer = judge(&recording, &mut bytes, &mut ledger).unwrap();
    assert_eq!(transfer.bytes(), b"HELLO");
    let all: Vec<Handover> = transfer.handovers().collect();

    let mut both_ways = transfer.handovers();
    assert_eq!((both_ways.len(), both_ways.clone().count()), (5, 5));
    assert_eq!(
        [both_ways.next(), both_ways.next_back()],
        [Some(all[0]), Some(all[4])]
    );
    assert_eq!(both_ways.len(), 3);
    assert!(both_ways.rev().eq([all[3], all[2], all[1]]));

    for (place, one) in all.iter().enumerate() {
        assert_eq!(one.byte, bytes[place]);
        assert_eq!([one.let_go, one.take], ledger[2 * place..][..2]);
    }
    assert_eq!((&bytes[5..], &ledger[10..]), (&BYTES[5..], &LEDGER[10..]));
}

#[test]
fn a_fault_after_a_byte_leaves_the_byte_and_is_an_error() {
    let (mut bytes, mut ledger) = (BYTES, LEDGER);
    let recording = include_bytes!("../../../samples/s1-attention.rec");
    let error = judge(recording, &mut bytes, &mut ledger).unwrap_err();
    let fault = Fault::Attention;
    assert_eq!(
        error,
        JudgeError::Fault {
            fault,
            tick: 1910,
            step: 24,
            count: 1
        }
    );
    assert_eq!((bytes[0], &ledger[..2]), (0x41, &[1630, 1660][..]));
}

#[test]
fn a_mark_is_an_error_at_its_step_and_says_what_to_do() {
    let (mut bytes, mut ledger) = (BYTES, LEDGER);
    let mut recording = *include_bytes!("../../../samples/s1.rec");
    recording[16 + 4 * 24 + 3] = 1;
    let error = judge(&recording, &mut bytes, &mut ledger).unwrap_err();
    let due = JudgeError::Fault {
        fault: Fault::Overrun,
        tick: 1910,
        step: 24,
        count: 1,
    };
    assert_eq!(error, due);
    assert_eq!((error.number(), error.name()), (40, "overrun"));
    assert_eq!(
        error.to_string(),
        "fault 40 (overrun) at tick 1910, step 24: the recorder lost ticks before this step: \
         nothing can be said of the transfer; record it again"
    );
    assert_eq!((bytes[0], &ledger[..2]), (0x41, &[1630, 1660][..]));
    assert_eq!((&bytes[1..], &ledger[2..]), (&BYTES[1..], &LEDGER[2..]));
}

#[test]
fn a_refusal_changes_nothing() {
    let (mut bytes, mut ledger) = (BYTES, LEDGER);
    let s1 = include_bytes!("../../../samples/s1.rec");
    let mut stray = *s1;
    stray[16 + 4 * 3 + 3] = 2;
    let refused = |refusal, step| Err(JudgeError::Refusal { refusal, step });
    assert_eq!(
        judge(&stray, &mut bytes, &mut ledger),
        refused(Refusal::StrayBits, 3)
    );
    assert_eq!(
        judge(b"", &mut bytes, &mut ledger),
        refused(Refusal::ShortFile, 0)
    );
    let short = &mut ledger[..LEDGER_ROOM - 1];
    assert_eq!(
        judge(s1, &mut bytes, short),
        refused(Refusal::ShortBuffers, 0)
    );
    assert_eq!((bytes, ledger), (BYTES, LEDGER));
}

#[test]
fn an_error_goes_where_errors_go() {
    fn passes(recording: &[u8]) -> Result<usize, Box<dyn std::error::Error + Send + Sync>> {
        let (mut bytes, mut ledger) = (BYTES, LEDGER);
        Ok(judge(recording, &mut bytes, &mut ledger)?.bytes().len())
    }
    assert_eq!(
        passes(include_bytes!("../../../samples/s1.rec")).unwrap(),
        1
    );
    let error = passes(b"").unwrap_err();
    assert_eq!(error.downcast_ref().map(JudgeError::number), Some(1));
}

/// 16,000 steps of one tick each, CLK and DATA pulled.
fn longest() -> Vec<u8> {
    let mut file = vec![
        1, 0, 0x80, 0x3E, 16, 0, 0, 0, 0x80, 0x3E, 0, 0, 0x10, 0xFA, 0, 0,
    ];
    file.extend([1, 0, 6, 0].repeat(16_000));
    file
}

#[test]
fn a_file_longer_than_the_longest_recording_is_answered_by_its_beginning() {
    let answer = |file: &[u8]| judge(file, &mut BYTES.clone(), &mut LEDGER.clone()).unwrap_err();
    let mut file = longest();
    assert_eq!(file.len(), LONGEST_RECORDING);
    assert_eq!(answer(&file).name(), "cut");
    file.resize(1_000_000, 0);
    assert_eq!(answer(&file).name(), "wrong-length");
    assert_eq!(answer(&file[..LONGEST_RECORDING + 1]), answer(&file));
}
