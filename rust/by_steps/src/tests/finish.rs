//! The finish of a command recording: 39 where ATN is released otherwise, and
//! what matters after it.

use super::command::{command, plain_command};
use super::recordings::{answer, first_ticks, judged, steps, verdict, Judged};
use crate::{judge, judge_command, write, Answer};

/// The verdict on 0x41, or on the carried 0x80, with `after` from the CLK pull
/// at tick 1,350 on.
fn open(after: &str) -> Answer {
    verdict(judge_command, &command(0x41, after))
}

fn carried(after: &str) -> Answer {
    verdict(judge_command, &command(0x80, after))
}

#[test]
fn too_soon_after_the_take() {
    assert_eq!(open("30:3 1:7 1:6"), answer(39, 1381, 21, 0));
    assert_eq!(open("30:3 99:7 1:6"), answer(39, 1479, 21, 0));
    assert_eq!(open("30:3 100:7 1:6"), answer(20, 1480, 21, 1));
    assert_eq!(open("30:3 60000:7 1:6"), answer(20, 61_380, 21, 1));
}

#[test]
fn in_the_tick_of_the_take() {
    assert_eq!(open("30:3 200:6"), answer(39, 1380, 20, 0));
}

/// Carried: the take stands at offset 1, tick 1,351.
#[test]
fn carried_at_100_against_101() {
    assert_eq!(carried("200:6"), answer(39, 1350, 19, 0));
    assert_eq!(carried("100:7 9:6"), answer(39, 1450, 20, 0));
    assert_eq!(carried("101:7 9:6"), answer(20, 1451, 20, 1));
    let passed = Judged {
        answer: answer(20, 1451, 20, 1),
        bytes: vec![0x80],
        ledger: vec![1351, 1351],
    };
    let at_101 = steps(&command(0x80, "101:7 9:6"));
    assert_eq!(judged(judge_command, &at_101), passed);
}

/// Carried, then let go at offset 50 and taken at 80: the take counts, not
/// offset 1.
#[test]
fn carried_and_let_go() {
    assert_eq!(carried("50:7 30:3 99:7 9:6"), answer(39, 1529, 22, 0));
    assert_eq!(carried("50:7 30:3 100:7 9:6"), answer(20, 1530, 22, 1));
}

#[test]
fn with_other_lines_than_both_pulled() {
    for lines in [0, 2, 4] {
        let in_hold = format!("30:3 200:7 9:{lines}");
        assert_eq!(open(&in_hold), answer(39, 1580, 21, 0));
        let in_carried = format!("200:7 9:{lines}");
        assert_eq!(carried(&in_carried), answer(39, 1550, 20, 0));
    }
}

#[test]
fn in_hold_before_any_byte() {
    assert_eq!(verdict(judge_command, "200:7 9:6"), answer(39, 200, 1, 0));
}

/// Before the rows of A: CLK released at tick 0 would be 25.
#[test]
fn at_tick_0() {
    for text in ["9:0", "9:2", "9:4", "9:6"] {
        assert_eq!(verdict(judge_command, text), answer(39, 0, 0, 0));
    }
}

/// "Tested before the phase's rows": 24, 38, 34, 35 and 36 would be due in the
/// very tick of the release.
#[test]
fn before_the_rows() {
    assert_eq!(verdict(judge_command, "256:3 9:2"), answer(39, 256, 1, 0));
    let silence = "200:7 50:5 199:1 9:0";
    assert_eq!(verdict(judge_command, silence), answer(39, 449, 3, 0));
    let stall = "200:7 50:5 60:1 200:3 9:2";
    assert_eq!(verdict(judge_command, stall), answer(39, 510, 4, 0));
    assert_eq!(open("1000:3 9:2"), answer(39, 2350, 20, 0));
    assert_eq!(open("30:3 99:7 9:4"), answer(39, 1479, 21, 0));
}

/// A row that is due one tick earlier decides first.
#[test]
fn after_the_rows_of_an_earlier_tick() {
    assert_eq!(verdict(judge_command, "257:3 9:2"), answer(24, 256, 0, 0));
    assert_eq!(open("30:3 99:7 1:5 9:6"), answer(36, 1479, 21, 0));
}

/// ATN released from any step before the finish on, so in every phase.
#[test]
fn in_every_phase() {
    let all = steps(&plain_command());
    for (number, tick) in (0..21).zip(first_ticks(&all)) {
        let mut released = all.clone();
        for step in &mut released[number..] {
            step.1 &= 6;
        }
        let early = judged(judge_command, &released).answer;
        assert_eq!(early, answer(39, tick, number as u32, 0));
    }
}

/// A release after the first byte was handed over counts that byte.
#[test]
fn after_a_byte_handed_over() {
    assert_eq!(open("30:3 200:7 50:5 9:6"), answer(39, 1630, 22, 1));
}

#[test]
fn a_pull_of_attention_after_the_finish() {
    for lines in [1, 3, 5, 7] {
        let pulled = format!("{} 9:{lines}", plain_command());
        assert_eq!(verdict(judge_command, &pulled), answer(37, 1680, 22, 1));
    }
    assert_eq!(open("30:3 200:7 1:6 9:7"), answer(37, 1581, 22, 1));
    let after_moves = plain_command() + " 5:0 5:4 1:7 5:0";
    let moved = judged(judge_command, &steps(&after_moves));
    assert_eq!(moved.answer, answer(37, 1690, 24, 1));
    assert_eq!((moved.bytes, moved.ledger), (vec![0x41], vec![1350, 1380]));
}

/// "What CLK and DATA show after it binds nobody."
#[test]
fn clk_and_data_move_after_the_finish() {
    let moving = plain_command() + " 1:4 1:0 1:2 1:6 300:0 65535:2 1:4";
    assert_eq!(verdict(judge_command, &moving), answer(20, 1580, 21, 1));
}

/// No recording is complete in both entries: tick 0 decides.
#[test]
fn handed_to_the_other_entry() {
    let (mut bytes, mut ledger) = ([0; 1000], [0; 2000]);
    let mut written = [0; 80 * 3 + 36];
    write(b"ABC", &mut written);
    let data = judge_command(&written, &mut bytes, &mut ledger);
    assert_eq!(data, answer(39, 0, 0, 0));
    assert_eq!(verdict(judge, &plain_command()), answer(23, 0, 0, 0));
    assert_eq!(verdict(judge, ""), answer(22, 0, 0, 0));
    assert_eq!(verdict(judge_command, ""), answer(22, 0, 0, 0));
}
