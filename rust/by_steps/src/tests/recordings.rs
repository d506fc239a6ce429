//! Recordings in document 01's own notation, "steps as duration:lines", where
//! lines is the byte of the step: 1 ATN, 2 CLK, 4 DATA, 8 SRQ.

use crate::Answer;

/// What lent places hold before the judge is called.
const KEPT_BYTE: u8 = 0xEE;
const KEPT_TICK: u32 = 0xEEEE_EEEE;

/// One of the two entries.
pub type Judge = fn(&[u8], &mut [u8], &mut [u32]) -> Answer;

/// An answer with what lies at the beginning of the lent memory.
#[derive(Debug, PartialEq)]
pub struct Judged {
    pub answer: Answer,
    pub bytes: Vec<u8>,
    pub ledger: Vec<u32>,
}

pub fn answer(number: u32, tick: u32, step: u32, count: u32) -> Answer {
    Answer {
        number,
        tick,
        step,
        count,
    }
}

/// Steps as pairs of a duration and a lines byte.
pub fn steps(text: &str) -> Vec<(u16, u8)> {
    let step = |word: &str| {
        let (duration, lines) = word.split_once(':').unwrap();
        (duration.parse().unwrap(), lines.parse().unwrap())
    };
    text.split_whitespace().map(step).collect()
}

/// The whole file of a recording, after "Recording layout".
pub fn file(steps: &[(u16, u8)]) -> Vec<u8> {
    let total: u32 = steps.iter().map(|step| u32::from(step.0)).sum();
    let length = 16 + 4 * steps.len() as u32;
    let mut file = vec![1, 0];
    file.extend((steps.len() as u16).to_le_bytes());
    for field in [16, total, length] {
        file.extend(u32::to_le_bytes(field));
    }
    for &(duration, lines) in steps {
        file.extend(duration.to_le_bytes());
        file.extend([lines, 0]);
    }
    file
}

/// The same for steps written as text, where a star stands before each marked one.
pub fn file_with_marks(text: &str) -> Vec<u8> {
    let mut file = file(&steps(&text.replace('*', "")));
    for (number, word) in text.split_whitespace().enumerate() {
        file[16 + 4 * number + 3] = u8::from(word.starts_with('*'));
    }
    file
}

pub fn judged(judge: Judge, steps: &[(u16, u8)]) -> Judged {
    judged_file(judge, &file(steps))
}

/// Judges with just enough lent, and sees to it that all places after the bytes
/// handed over "keep what they held".
pub fn judged_file(judge: Judge, file: &[u8]) -> Judged {
    let (mut bytes, mut ledger) = (vec![KEPT_BYTE; 1000], vec![KEPT_TICK; 2000]);
    let answer = judge(file, &mut bytes, &mut ledger);
    let count = answer.count as usize;
    assert!(bytes.drain(count..).all(|byte| byte == KEPT_BYTE));
    assert!(ledger.drain(2 * count..).all(|tick| tick == KEPT_TICK));
    Judged {
        answer,
        bytes,
        ledger,
    }
}

/// The answer alone, for steps written as text.
pub fn verdict(judge: Judge, text: &str) -> Answer {
    judged(judge, &steps(text)).answer
}

/// The eight bits of `byte`, each (1,b) 70, (0,b) 60, with ATN added to both.
pub fn bits(byte: u8, attention: u8) -> String {
    let bit = |place: u8| {
        let data = 4 * (byte >> place & 1) + attention;
        format!(" 70:{} 60:{} ", data + 2, data)
    };
    (0..8).map(bit).collect()
}

/// The first tick of each step, and the total ticks at the end.
pub fn first_ticks(steps: &[(u16, u8)]) -> Vec<u32> {
    let mut ticks = vec![0];
    for &(duration, _) in steps {
        ticks.push(ticks[ticks.len() - 1] + u32::from(duration));
    }
    ticks
}

/// Step `number` cut in two, its first part of `first` ticks.
pub fn cut_in_two(steps: &[(u16, u8)], number: usize, first: u16) -> Vec<(u16, u8)> {
    let (duration, lines) = steps[number];
    let mut cut = steps.to_vec();
    cut[number] = (duration - first, lines);
    cut.insert(number, (first, lines));
    cut
}
