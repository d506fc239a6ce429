//! #103's verdict 40 beside others: those that are due in the marked tick itself
//! give way to it, and those of an earlier tick stand.

use super::overruns::{command_from_pull, from_bits, from_pull, overrun, verdict};
use super::recordings::answer;
use crate::{judge, judge_command};

/// "Before ATN is looked at": unmarked these are 23, 23, 39, 39, 37.
#[test]
fn before_attention() {
    assert_eq!(verdict(judge, "200:6 *9:7"), overrun(200, 1, 0));
    let in_the_end = "30:2 200:6 50:4 100:0 *1:1";
    assert_eq!(from_pull(in_the_end), overrun(2010, 25, 1));
    assert_eq!(verdict(judge_command, "200:7 *9:6"), overrun(200, 1, 0));
    let too_soon = "30:3 99:7 *9:6";
    assert_eq!(command_from_pull(too_soon), overrun(1479, 21, 0));
    let after_the_finish = "30:3 200:7 100:6 *9:7";
    assert_eq!(command_from_pull(after_the_finish), overrun(1680, 22, 1));
}

/// A row's verdict that would be due in the marked tick itself.
#[test]
fn before_the_rows_up_to_the_bits() {
    let plain = |text| verdict(judge, text);
    // 24, and the way to B.
    assert_eq!(plain("256:2 *1:2"), overrun(256, 1, 0));
    assert_eq!(plain("256:2 *1:6"), overrun(256, 1, 0));
    // 26 in A, B and C.
    assert_eq!(plain("9:2 *1:0"), overrun(9, 1, 0));
    assert_eq!(plain("9:6 *1:2"), overrun(9, 1, 0));
    assert_eq!(plain("9:6 9:4 *1:6"), overrun(18, 2, 0));
    // 27, 28, 29, 30 and 21.
    assert_eq!(plain("200:6 50:4 290:0 *1:0"), overrun(540, 3, 0));
    assert_eq!(plain("200:6 50:4 220:0 59:4 *40:0"), overrun(529, 4, 0));
    assert_eq!(plain("200:6 50:4 220:0 150:4 *1:4"), overrun(620, 4, 0));
    assert_eq!(plain("200:6 50:4 220:0 80:4 61:0 *1:6"), overrun(611, 5, 0));
    let time_out = "200:6 50:4 220:0 80:4 212:0 *1:0";
    assert_eq!(plain(time_out), overrun(762, 5, 0));
    // 38.
    let silence = "200:7 50:5 199:1 *1:1";
    assert_eq!(verdict(judge_command, silence), overrun(449, 3, 0));
}

#[test]
fn before_the_rows_from_the_bits_on() {
    // 32, 33, 34 and 34.
    assert_eq!(from_bits("70:6 19:4 *70:2"), overrun(679, 7, 0));
    assert_eq!(from_bits("70:6 *60:0"), overrun(660, 6, 0));
    assert_eq!(from_bits("200:6 *1:6"), overrun(790, 6, 0));
    assert_eq!(from_bits("70:6 200:4 *1:4"), overrun(860, 7, 0));
    // 26 at offset 0, 35, 36 and 37.
    assert_eq!(from_pull("*30:6"), overrun(1630, 21, 0));
    assert_eq!(from_pull("1000:2 *1:2"), overrun(2630, 22, 0));
    assert_eq!(from_pull("30:2 99:6 *50:4"), overrun(1759, 23, 0));
    let moved = "30:2 200:6 50:4 100:0 *1:2";
    assert_eq!(from_pull(moved), overrun(2010, 25, 1));
}

/// "Stops for good at the deciding tick": a mark in the next tick is too late.
#[test]
fn after_an_earlier_verdict() {
    let plain = |text| verdict(judge, text);
    assert_eq!(plain("1:4 *1:6"), answer(25, 0, 0, 0));
    assert_eq!(plain("9:6 1:7 *1:6"), answer(23, 9, 1, 0));
    assert_eq!(plain("257:2 *1:6"), answer(24, 256, 0, 0));
    assert_eq!(plain("9:6 1:0 *1:0"), answer(26, 9, 1, 0));
    let time_out = "200:6 50:4 220:0 80:4 213:0 *1:0";
    assert_eq!(plain(time_out), answer(21, 762, 4, 0));
    assert_eq!(from_bits("201:6 *1:6"), answer(34, 790, 5, 0));
    assert_eq!(from_pull("1001:2 *1:2"), answer(35, 2630, 21, 0));
    assert_eq!(from_pull("30:2 99:6 1:4 *49:4"), answer(36, 1759, 23, 0));
    let moved = "30:2 200:6 50:4 100:0 1:2 *1:0";
    assert_eq!(from_pull(moved), answer(37, 2010, 25, 1));
    let commands = |text| verdict(judge_command, text);
    assert_eq!(commands("200:7 50:5 200:1 *1:1"), answer(38, 449, 2, 0));
    assert_eq!(commands("200:7 1:6 *9:6"), answer(39, 200, 1, 0));
    let attention_again = "30:3 200:7 100:6 1:7 *9:6";
    assert_eq!(command_from_pull(attention_again), answer(37, 1680, 22, 1));
}
