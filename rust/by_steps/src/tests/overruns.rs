//! #103: "The first tick of a marked step gives verdict 40", wherever it falls. A
//! star stands before a marked step.

use super::command::command;
use super::recordings::{answer, bits, file_with_marks, judged_file, Judge, Judged};
use crate::recording::{check, Step};
use crate::{judge, judge_command, write, Answer};

/// A to G of S1: 590 ticks, 5 steps.
const BEFORE: &str = "200:6 50:4 220:0 80:4 40:0";

/// S1, or its like with another byte, up to the CLK pull after bit 8; `after`
/// begins at tick 1,630, in step 21.
fn data(byte: u8, after: &str) -> String {
    format!("{BEFORE}{}{after}", bits(byte, 0))
}

fn judged(judge: Judge, text: &str) -> Judged {
    judged_file(judge, &file_with_marks(text))
}

pub fn verdict(judge: Judge, text: &str) -> Answer {
    judged(judge, text).answer
}

/// The verdict on S1 with other steps from its first bit on, at tick 590 in step 5.
pub fn from_bits(after: &str) -> Answer {
    verdict(judge, &format!("{BEFORE} {after}"))
}

/// The same from the CLK pull after bit 8 on.
pub fn from_pull(after: &str) -> Answer {
    verdict(judge, &data(0x41, after))
}

/// The same in a command recording, where that pull is at tick 1,350 in step 19.
pub fn command_from_pull(after: &str) -> Answer {
    verdict(judge_command, &command(0x41, after))
}

pub fn overrun(tick: u32, step: u32, count: u32) -> Answer {
    answer(40, tick, step, count)
}

/// In both entries, so before 25, 23 and 39 as well.
#[test]
fn at_tick_0() {
    for lines in 0..16 {
        let text = format!("*9:{lines} 9:6");
        assert_eq!(verdict(judge, &text), overrun(0, 0, 0));
        assert_eq!(verdict(judge_command, &text), overrun(0, 0, 0));
    }
}

/// A mark within each phase, at a tick whose lines alone would let it stay.
#[test]
fn in_every_phase_of_a_data_recording() {
    let plain = |text| verdict(judge, text);
    assert_eq!(plain("100:2 *50:2"), overrun(100, 1, 0));
    assert_eq!(plain("200:6 *9:6"), overrun(200, 1, 0));
    assert_eq!(plain("200:6 50:4 *9:4"), overrun(250, 2, 0));
    assert_eq!(plain("200:6 50:4 60:0 *9:0"), overrun(310, 3, 0));
    assert_eq!(plain("200:6 50:4 220:0 *9:0"), overrun(470, 3, 0));
    let in_acknowledgement = "200:6 50:4 220:0 30:4 *50:4";
    assert_eq!(plain(in_acknowledgement), overrun(500, 4, 0));
    let after_acknowledgement = "200:6 50:4 220:0 80:4 20:0 *20:0";
    assert_eq!(plain(after_acknowledgement), overrun(570, 5, 0));
    assert_eq!(from_bits("30:6 *40:6"), overrun(620, 6, 0));
    assert_eq!(from_bits("70:6 30:4 *30:4"), overrun(690, 7, 0));
    assert_eq!(from_pull("10:2 *20:2"), overrun(1640, 22, 0));
    assert_eq!(plain(&data(0x80, "50:6 *51:6")), overrun(1680, 22, 0));
    assert_eq!(from_pull("30:2 50:6 *150:6"), overrun(1710, 23, 0));
    assert_eq!(from_pull("30:2 200:6 10:4 *40:4"), overrun(1870, 24, 1));
}

/// The same under attention, and so without F, G and E.
#[test]
fn in_every_phase_of_a_command_recording() {
    let commands = |text| verdict(judge_command, text);
    assert_eq!(commands("100:3 *50:3"), overrun(100, 1, 0));
    assert_eq!(commands("200:7 *9:7"), overrun(200, 1, 0));
    assert_eq!(commands("200:7 50:5 *9:5"), overrun(250, 2, 0));
    assert_eq!(commands("200:7 50:5 60:1 *9:1"), overrun(310, 3, 0));
    assert_eq!(commands("200:7 50:5 60:1 30:7 *40:7"), overrun(340, 4, 0));
    let in_valid = "200:7 50:5 60:1 70:7 30:5 *30:5";
    assert_eq!(commands(in_valid), overrun(410, 5, 0));
    assert_eq!(command_from_pull("10:3 *20:3"), overrun(1360, 20, 0));
    let in_carried = command(0x80, "50:7 *51:7");
    assert_eq!(commands(&in_carried), overrun(1400, 20, 0));
    assert_eq!(command_from_pull("30:3 50:7 *150:7"), overrun(1430, 21, 0));
    let next_begun = "30:3 200:7 10:5 *40:5";
    assert_eq!(command_from_pull(next_begun), overrun(1590, 22, 1));
}

/// E begins at tick 1,910, in step 24, and ends with tick 2,009.
#[test]
fn in_the_end() {
    assert_eq!(from_pull("30:2 200:6 50:4 *100:0"), overrun(1910, 24, 1));
    assert_eq!(from_pull("30:2 200:6 50:4 1:0 *99:0"), overrun(1911, 25, 1));
    let in_its_last_tick = Judged {
        answer: overrun(2009, 25, 1),
        bytes: vec![0x41],
        ledger: vec![1630, 1660],
    };
    let text = data(0x41, "30:2 200:6 50:4 99:0 *1:0");
    assert_eq!(judged(judge, &text), in_its_last_tick);
    assert_eq!(from_pull("30:2 200:6 50:4 100:0"), answer(20, 1910, 24, 1));
}

/// The finish is at tick 1,580 in step 21; CLK and DATA bind nobody after it.
#[test]
fn after_the_finish_of_a_command_recording() {
    for lines in [0, 2, 4, 6, 14] {
        let soon = format!("30:3 200:7 1:6 *9:{lines}");
        assert_eq!(command_from_pull(&soon), overrun(1581, 22, 1));
        let later = format!("30:3 200:7 100:6 5:0 5:4 *9:{lines}");
        assert_eq!(command_from_pull(&later), overrun(1690, 24, 1));
    }
    let in_the_last_tick = Judged {
        answer: overrun(1679, 22, 1),
        bytes: vec![0x41],
        ledger: vec![1350, 1380],
    };
    let text = command(0x41, "30:3 200:7 99:6 *1:6");
    assert_eq!(judged(judge_command, &text), in_the_last_tick);
}

/// The finish's own tick, 200 after the take or at offset 101 of a carried
/// handover. Unmarked it would be 20.
#[test]
fn instead_of_the_finish() {
    let in_hold = "30:3 200:7 *100:6";
    assert_eq!(command_from_pull(in_hold), overrun(1580, 21, 0));
    let carried = |text| verdict(judge_command, &command(0x80, text));
    assert_eq!(carried("101:7 *9:6"), overrun(1451, 20, 0));
    assert_eq!(carried("101:7 1:6 *8:6"), overrun(1452, 21, 1));
}

/// A byte waits from its take to the tick that enters C. That tick marked hands
/// nothing over: "Its count is the bytes handed over."
#[test]
fn while_a_byte_waits() {
    assert_eq!(from_pull("30:2 *200:6"), overrun(1660, 22, 0));
    assert_eq!(from_pull("30:2 199:6 *1:6"), overrun(1859, 23, 0));
    assert_eq!(from_pull("30:2 200:6 *50:4"), overrun(1860, 23, 0));
    assert_eq!(from_pull("30:2 200:6 1:4 *49:4"), overrun(1861, 24, 1));
    let carried = |text| verdict(judge, &data(0x80, text));
    assert_eq!(carried("101:6 *50:4"), overrun(1731, 22, 0));
    assert_eq!(carried("101:6 1:4 *49:4"), overrun(1732, 23, 1));
}

/// The first byte is without the end mark: its pull is at 1,350 in step 19, its
/// take at 1,380, and the second D begins at 1,630 in step 22. So the second
/// byte's bits begin at 1,970 in step 25, its pull is at 3,010 in step 41.
#[test]
fn while_a_second_byte_waits() {
    let first = format!("200:6 50:4 60:0{}30:2 200:6 50:4", bits(0x41, 0));
    let second = format!("220:0 80:4 40:0{}30:2 200:6", bits(0x28, 0));
    let waits = Judged {
        answer: overrun(3240, 43, 1),
        bytes: vec![0x41],
        ledger: vec![1350, 1380],
    };
    assert_eq!(judged(judge, &format!("{first} {second} *50:4")), waits);
    let handed_over = Judged {
        answer: overrun(3290, 44, 2),
        bytes: vec![0x41, 0x28],
        ledger: vec![1350, 1380, 3010, 3040],
    };
    let text = format!("{first} {second} 50:4 *100:0");
    assert_eq!(judged(judge, &text), handed_over);
}

/// The first of several marks decides, also where ATN moves between them.
#[test]
fn more_than_one_mark() {
    assert_eq!(verdict(judge, "*1:6 *1:6 *1:6"), overrun(0, 0, 0));
    assert_eq!(verdict(judge, "9:6 *9:6 9:7 *9:7"), overrun(9, 1, 0));
    assert_eq!(
        verdict(judge_command, "9:7 *9:7 9:6 *9:6"),
        overrun(9, 1, 0)
    );
    let after_the_finish = "30:3 200:7 100:6 *9:6 *9:7";
    assert_eq!(command_from_pull(after_the_finish), overrun(1680, 22, 1));
}

/// "Reading a step must report the mark": of each step by itself.
#[test]
fn reading_a_step_reports_the_mark() {
    let file = file_with_marks("9:6 *9:6 *1:15 65535:15 *65535:0");
    let recording = check(&file, 1000, 2000).unwrap();
    let marks: Vec<bool> = recording.steps().map(Step::marked).collect();
    assert_eq!(marks, [false, true, true, false, true]);
    let durations: Vec<u32> = recording.steps().map(Step::duration).collect();
    assert_eq!(durations, [9, 9, 1, 65_535, 65_535]);
}

/// Also where the destination held ones before.
#[test]
fn the_writer_never_marks() {
    for bytes in [&[][..], &[0x41], &[0x00, 0xFF, 0x80], &[0xFF; 799]] {
        let mut written = vec![1; 80 * bytes.len() + 36];
        write(bytes, &mut written);
        let recording = check(&written, 1000, 2000).unwrap();
        assert!(!recording.steps().any(Step::marked));
    }
}
