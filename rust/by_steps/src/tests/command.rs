//! The command entry up to the finish: the pass, 38, 22, and rows that it shares
//! with the plain entry.

use super::recordings::{
    answer, bits, cut_in_two, first_ticks, judged, steps, verdict, Judge, Judged,
};
use crate::{judge, judge_command};

const ATN: u8 = 1;

/// A, B, C and D of the first byte: 310 ticks, 3 steps.
const BEFORE: &str = "200:7 50:5 60:1";

/// A command recording of `byte`. The bits take 1,040 ticks and 16 steps, so
/// `after` begins at tick 1,350, in step 19.
pub fn command(byte: u8, after: &str) -> String {
    format!("{BEFORE}{}{after}", bits(byte, ATN))
}

/// The byte 0x41: pull at 1,350, take at 1,380, finish at 1,580 in step 21.
pub fn plain_command() -> String {
    command(0x41, "30:3 200:7 100:6")
}

#[test]
fn one_byte_passes() {
    let passed = Judged {
        answer: answer(20, 1580, 21, 1),
        bytes: vec![0x41],
        ledger: vec![1350, 1380],
    };
    assert_eq!(judged(judge_command, &steps(&plain_command())), passed);
}

/// The second byte's bits begin 310 ticks after the first one's take, at 1,690 in
/// step 23, and its pull comes 1,040 ticks and 16 steps later. It is carried, let
/// go at offset 40, taken at 70 and held for 100.
#[test]
fn two_bytes_pass() {
    let second = bits(0xF0, ATN);
    let after = format!("30:3 200:7 50:5 60:1 {second} 40:7 30:3 100:7 1:6");
    let passed = Judged {
        answer: answer(20, 2900, 42, 2),
        bytes: vec![0x28, 0xF0],
        ledger: vec![1350, 1380, 2770, 2800],
    };
    assert_eq!(
        judged(judge_command, &steps(&command(0x28, &after))),
        passed
    );
}

/// D begins at tick 250, so its offset 199 is tick 449.
#[test]
fn silence_is_an_end_mark_under_attention() {
    let after_silence = |duration: u16, then: &str| {
        let text = format!("200:7 50:5 {duration}:1 {then}");
        verdict(judge_command, &text)
    };
    assert_eq!(after_silence(200, "1:3"), answer(38, 449, 2, 0));
    assert_eq!(after_silence(199, "1:1"), answer(38, 449, 3, 0));
    assert_eq!(after_silence(199, ""), answer(22, 449, 3, 0));
    // A CLK pull there begins the bits; DATA there is still "before offset 200".
    assert_eq!(after_silence(199, "1:3"), answer(22, 450, 4, 0));
    assert_eq!(after_silence(199, "1:7"), answer(22, 450, 4, 0));
    assert_eq!(after_silence(199, "1:5"), answer(26, 449, 3, 0));
    let bits_and_finish = bits(0x41, ATN) + "30:3 200:7 100:6";
    assert_eq!(
        after_silence(199, &bits_and_finish),
        answer(20, 1719, 21, 1)
    );
}

/// Cut anywhere before the finish: 22 with total ticks and n.
#[test]
fn running_out_before_the_finish_is_cut() {
    let all = steps(&plain_command());
    for (n, tick) in (0..21).zip(first_ticks(&all)) {
        let cut = judged(judge_command, &all[..n]).answer;
        assert_eq!(cut, answer(22, tick, n as u32, 0));
    }
    let no_release = command(0x41, "30:3 200:7");
    assert_eq!(verdict(judge_command, &no_release), answer(22, 1580, 21, 0));
    let next_begun = command(0x41, "30:3 200:7 50:5");
    assert_eq!(verdict(judge_command, &next_begun), answer(22, 1630, 22, 1));
}

/// "Phases as in document 01": what ATN does not touch has the same number, at
/// the same place, in both entries.
#[test]
fn shared_rows_answer_alike() {
    let shared = [
        ("257:2", answer(24, 256, 0, 0)),
        ("1:0", answer(25, 0, 0, 0)),
        ("9:2 1:0", answer(26, 9, 1, 0)),
        ("9:6 1:2", answer(26, 9, 1, 0)),
        ("9:6 9:4 1:6", answer(26, 18, 2, 0)),
        ("9:6 9:4 9:0 19:2 19:0 1:2", answer(32, 65, 5, 0)),
        ("9:6 9:4 9:0 19:2 20:4", answer(33, 46, 4, 0)),
        ("9:6 9:4 9:0 201:2", answer(34, 227, 3, 0)),
        ("9:6 9:4 9:0 19:2 201:0", answer(34, 246, 4, 0)),
    ];
    for (text, expected) in shared {
        let plain = steps(text);
        let under_attention: Vec<_> = plain.iter().map(|step| (step.0, step.1 | ATN)).collect();
        assert_eq!(judged(judge, &plain).answer, expected, "{text}");
        let command = judged(judge_command, &under_attention).answer;
        assert_eq!(command, expected, "{text}");
    }
    let late_take = command(0x41, "1001:3");
    assert_eq!(verdict(judge_command, &late_take), answer(35, 2350, 19, 0));
    let hurried = command(0x41, "30:3 99:7 1:5");
    assert_eq!(verdict(judge_command, &hurried), answer(36, 1479, 21, 0));
    let carried_hurried = command(0x80, "100:7 1:5");
    assert_eq!(
        verdict(judge_command, &carried_hurried),
        answer(36, 1450, 20, 0)
    );
}

/// "SRQ is read and changes no answer."
#[test]
fn srq_changes_nothing() {
    let released = steps(&plain_command());
    let pulled: Vec<_> = released.iter().map(|step| (step.0, step.1 | 8)).collect();
    let judged = |steps| judged(judge_command, steps);
    assert_eq!(judged(&pulled), judged(&released));
}

/// "The meaning is the list of ticks": a cut changes no more than the number of
/// the step that holds the deciding tick.
#[test]
fn steps_cut_in_two_change_nothing() {
    let texts = [
        plain_command(),
        plain_command() + " 5:0 5:7",
        command(0x80, "101:7 50:6"),
        command(0x80, "100:7 50:6"),
        command(0x41, "30:3 99:7 50:6"),
        "200:7 50:5 220:1 9:3".to_string(),
    ];
    for text in texts {
        let whole = steps(&text);
        for number in 0..whole.len() {
            for first in [1, whole[number].0 / 2, whole[number].0 - 1] {
                let cut = cut_in_two(&whole, number, first);
                assert_same_but_step(judge_command, &whole, &cut);
            }
        }
    }
}

fn assert_same_but_step(judge: Judge, whole: &[(u16, u8)], cut: &[(u16, u8)]) {
    let mut expected = judged(judge, whole);
    let ended = |tick: &&u32| **tick <= expected.answer.tick;
    let steps_ended = first_ticks(cut)[1..].iter().filter(ended).count();
    expected.answer.step = steps_ended as u32;
    assert_eq!(judged(judge, cut), expected);
}
