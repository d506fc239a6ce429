//! The plain entry is what it was: document 01's samples, and one recording at
//! least for each of its verdicts, 20 to 37.

use super::recordings::{answer, bits, file, judged, steps, verdict, Judged};
use crate::{judge, write, Answer};

const BEFORE: &str = "200:6 50:4 220:0 80:4 40:0";
const AFTER: &str = "30:2 200:6 50:4 100:0";

/// The verdict on S1 with other steps before its bits, and after them.
fn before(before: &str) -> Answer {
    verdict(judge, &format!("{before}{}{AFTER}", bits(0x41, 0)))
}

fn after(after: &str) -> Answer {
    verdict(judge, &format!("{BEFORE}{}{after}", bits(0x41, 0)))
}

/// S1 with its first two bit steps, the first bit's set-up and valid, replaced.
fn first_bit(bit: &str) -> Answer {
    let others = bits(0x41, 0).replacen("70:6 60:4", bit, 1);
    verdict(judge, &format!("{BEFORE}{others}{AFTER}"))
}

#[test]
fn s1() {
    let s1 = steps(&format!("{BEFORE}{}{AFTER}", bits(0x41, 0)));
    let mut written = [0; 80 + 36];
    write(&[0x41], &mut written);
    assert_eq!(file(&s1), written);
    let passed = Judged {
        answer: answer(20, 1910, 24, 1),
        bytes: vec![0x41],
        ledger: vec![1630, 1660],
    };
    assert_eq!(judged(judge, &s1), passed);
}

#[test]
fn start_and_hold() {
    assert_eq!(verdict(judge, ""), answer(22, 0, 0, 0));
    assert_eq!(verdict(judge, "257:2"), answer(24, 256, 0, 0));
    assert_eq!(verdict(judge, "256:2 1:6"), answer(22, 257, 2, 0));
    assert_eq!(verdict(judge, "1:4"), answer(25, 0, 0, 0));
    assert_eq!(verdict(judge, "9:6 1:0"), answer(26, 9, 1, 0));
}

/// 38 isn't a number of the plain entry: 199 ticks of silence are plain, 200
/// are an end mark.
#[test]
fn end_mark() {
    assert_eq!(before("200:6 50:4 199:0 80:4 40:0"), answer(26, 449, 3, 0));
    assert_eq!(
        before("200:6 50:4 200:0 80:4 40:0"),
        answer(20, 1890, 24, 1)
    );
    assert_eq!(
        before("200:6 50:4 290:0 80:4 40:0"),
        answer(20, 1980, 24, 1)
    );
    assert_eq!(before("200:6 50:4 291:0 80:4 40:0"), answer(27, 540, 2, 0));
    assert_eq!(before("200:6 50:4 220:0 59:4 40:0"), answer(28, 529, 4, 0));
    assert_eq!(before("200:6 50:4 220:0 151:4 40:0"), answer(29, 620, 3, 0));
    assert_eq!(
        before("200:6 50:4 220:0 80:4 60:0"),
        answer(20, 1930, 24, 1)
    );
    assert_eq!(before("200:6 50:4 220:0 80:4 61:0"), answer(30, 611, 5, 0));
    let no_bytes = "200:6 50:4 220:0 80:4 300:0";
    assert_eq!(verdict(judge, no_bytes), answer(21, 762, 4, 0));
}

/// A first byte without the end mark, then none: its pull is at 1,350, its take
/// at 1,380, the second D begins at 1,630.
#[test]
fn sender_time_out() {
    let first = format!("200:6 50:4 60:0{}", bits(0x41, 0));
    let silent = first + "30:2 200:6 50:4 220:0 80:4 300:0";
    assert_eq!(verdict(judge, &silent), answer(31, 2142, 24, 1));
}

#[test]
fn bits_of_a_byte() {
    assert_eq!(first_bit("70:6 19:4"), answer(32, 679, 7, 0));
    assert_eq!(first_bit("70:6 20:4"), answer(20, 1870, 24, 1));
    assert_eq!(first_bit("70:6 60:0"), answer(33, 660, 6, 0));
    assert_eq!(first_bit("201:6 60:4"), answer(34, 790, 5, 0));
    assert_eq!(first_bit("70:6 201:4"), answer(34, 860, 6, 0));
}

#[test]
fn handover_and_end() {
    assert_eq!(after("1001:2 200:6 50:4 100:0"), answer(35, 2630, 21, 0));
    assert_eq!(after("1000:2 200:6 50:4 100:0"), answer(20, 2880, 24, 1));
    assert_eq!(after("30:2 99:6 50:4 100:0"), answer(36, 1759, 23, 0));
    assert_eq!(after("30:2 200:6 50:4 100:0 1:2"), answer(37, 2010, 25, 1));
    let carried = |hold: u16| {
        let text = format!("{BEFORE}{}{hold}:6 50:4 100:0", bits(0x80, 0));
        judged(judge, &steps(&text))
    };
    assert_eq!(carried(100).answer, answer(36, 1730, 22, 0));
    assert_eq!(carried(101).answer, answer(20, 1781, 23, 1));
    assert_eq!(carried(101).ledger, [1631, 1631]);
}

/// ATN moving is 23 here and never a finish, also where (1,1) shows long after
/// the take.
#[test]
fn attention() {
    assert_eq!(after("30:2 200:6 50:4 100:1"), answer(23, 1910, 24, 1));
    assert_eq!(after("30:2 200:6 50:7 100:6"), answer(23, 1860, 23, 0));
    assert_eq!(after("30:2 200:6 50:4 100:0 1:1"), answer(23, 2010, 25, 1));
}
