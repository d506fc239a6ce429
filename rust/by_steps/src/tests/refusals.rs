//! "Same refusals": 1 to 9 are given by both entries alike.

use super::recordings::{answer, file, file_with_marks, judged_file, Judge};
use crate::{judge, judge_command, Answer};

/// Judges with `places` for bytes and twice as many in the ledger; a refusal
/// changes "no lent byte or number".
fn refused(judge: Judge, file: &[u8], places: usize) -> Answer {
    let (mut bytes, mut ledger) = (vec![7; places], vec![7; 2 * places]);
    let answer = judge(file, &mut bytes, &mut ledger);
    assert!(bytes.iter().all(|byte| *byte == 7) && ledger.iter().all(|tick| *tick == 7));
    answer
}

fn assert_both(file: &[u8], places: usize, number: u32, step: u32) {
    for judge in [judge, judge_command] {
        assert_eq!(refused(judge, file, places), answer(number, 0, step, 0));
    }
}

/// A file of two steps with the byte at `place` set to `value`.
fn with_byte(place: usize, value: u8) -> Vec<u8> {
    let mut file = file(&[(200, 7), (9, 5)]);
    file[place] = value;
    file
}

#[test]
fn both_entries_refuse_alike() {
    assert_both(&[1; 15], 1000, 1, 0);
    assert_both(&with_byte(0, 2), 1000, 2, 0);
    assert_both(&with_byte(3, 0xFF), 1000, 3, 0);
    assert_both(&with_byte(4, 17), 1000, 4, 0);
    assert_both(&with_byte(12, 25), 1000, 5, 0);
    assert_both(&with_byte(20, 0), 1000, 6, 1);
    assert_both(&with_byte(22, 0x15), 1000, 7, 1);
    assert_both(&with_byte(23, 2), 1000, 7, 1);
    assert_both(&with_byte(8, 210), 1000, 8, 0);
    assert_both(&with_byte(0, 1), 999, 9, 0);
}

/// #103: "Refusal 7 now means other line bits or a last byte above 1." The file
/// has 209 ticks; its ATN, pulled from tick 0 on, is 23 in the plain entry.
#[test]
fn last_byte_of_a_step() {
    let last_byte = |judge, value| judged_file(judge, &with_byte(23, value)).answer;
    assert_eq!(last_byte(judge_command, 0), answer(22, 209, 2, 0));
    assert_eq!(last_byte(judge_command, 1), answer(40, 200, 1, 0));
    assert_eq!(last_byte(judge, 0), answer(23, 0, 0, 0));
    assert_eq!(last_byte(judge, 1), answer(23, 0, 0, 0));
    for value in 2..=0xFF {
        assert_both(&with_byte(23, value), 1000, 7, 1);
    }
}

/// A mark is no refusal and takes no test's place: 6, 7, 8 and 9 are given for a
/// recording with one as for any other.
#[test]
fn refusals_beside_a_mark() {
    let marked = |place: usize, value: u8| {
        let mut file = file_with_marks("*200:7 *9:5");
        file[place] = value;
        file
    };
    assert_both(&marked(20, 0), 1000, 6, 1);
    assert_both(&marked(22, 0x15), 1000, 7, 1);
    assert_both(&marked(19, 2), 1000, 7, 0);
    assert_both(&marked(8, 210), 1000, 8, 0);
    assert_both(&marked(0, 1), 999, 9, 0);
    assert_both(&marked(0, 2), 1000, 2, 0);
}

/// "Steps are tested first to last, 6 before 7 in one step", and 7 before 8.
#[test]
fn last_byte_above_1_beside_other_faults() {
    let mut duration_0_too = with_byte(23, 2);
    duration_0_too[20] = 0;
    assert_both(&duration_0_too, 1000, 6, 1);
    let mut earlier_step_too = with_byte(19, 2);
    earlier_step_too[20] = 0;
    assert_both(&earlier_step_too, 1000, 7, 0);
    let mut total_too = with_byte(23, 2);
    total_too[8] = 210;
    assert_both(&total_too, 999, 7, 1);
}
