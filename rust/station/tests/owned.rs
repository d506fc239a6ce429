//! The judge and the writer that own their memory.
#![cfg(feature = "std")]

use station::{write_to_vec, Handover, Judge, JudgeError, WriteRefusal, MOST_BYTES};

#[test]
fn one_judge_judges_one_recording_after_another() {
    let mut judge = Judge::default();
    assert_eq!(judge.before_fault().len(), 0);
    let pass = write_to_vec(b"HELLO").unwrap();
    let fault = include_bytes!("../../../samples/s1-attention.rec");
    for _ in 0..2 {
        assert_eq!(judge.judge(&pass).unwrap().bytes(), b"HELLO");
        assert_eq!(judge.before_fault().len(), 0);

        let error = judge.judge(fault).unwrap_err();
        assert!(matches!(error, JudgeError::Fault { count: 1, .. }));
        let before = Handover {
            byte: 0x41,
            let_go: 1630,
            take: 1660,
        };
        assert!(judge.before_fault().eq([before]));

        assert_eq!(judge.judge(b"").unwrap_err().name(), "short-file");
        assert_eq!(judge.before_fault().len(), 0);
    }
}

#[test]
fn one_judge_judges_data_and_commands() {
    let mut judge = Judge::new();
    let commands = include_bytes!("../../../samples/commands/drive-addressed.rec");
    let too_soon = include_bytes!("../../../samples/commands/last-hold-99.rec");
    let data = write_to_vec(b"HELLO").unwrap();
    for _ in 0..2 {
        let transfer = judge.judge_command(commands).unwrap();
        assert_eq!(transfer.bytes(), [0x28, 0x6F]);
        assert_eq!(judge.before_fault().len(), 0);

        assert_eq!(judge.judge_command(too_soon).unwrap_err().number(), 39);
        assert!(judge.before_fault().map(|one| one.byte).eq([0x28]));

        assert_eq!(judge.judge_command(&data).unwrap_err().number(), 39);
        assert_eq!(judge.before_fault().len(), 0);

        assert_eq!(judge.judge(&data).unwrap().bytes(), b"HELLO");
        assert_eq!(judge.judge(commands).unwrap_err().number(), 23);
        assert_eq!(judge.before_fault().len(), 0);
    }
}

#[test]
fn a_recording_is_written_to_memory_of_its_own() {
    let s1 = include_bytes!("../../../samples/s1.rec");
    assert_eq!(write_to_vec(b"A").as_deref(), Ok(&s1[..]));
    let longest = write_to_vec(&[0x80; MOST_BYTES]).unwrap();
    let mut judge = Judge::new();
    assert_eq!(judge.judge(&longest).unwrap().bytes(), [0x80; MOST_BYTES]);
    let refused = write_to_vec(&[0; MOST_BYTES + 1]);
    assert_eq!(refused, Err(WriteRefusal::TooManyBytes));
}
