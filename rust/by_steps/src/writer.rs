//! "What the writer puts down".

use crate::numbers::{DESTINATION_TOO_SMALL, TOO_MANY_BYTES, WRITTEN};
use crate::recording::{HEADER_BYTES, VERSION};
use crate::step::{Lines, Step, StepBytes, STEP_BYTES};
use crate::Answer;

const MOST_BYTES: usize = 799;
const STEPS_FOR_EACH_BYTE: usize = 20;
const STEPS_BESIDES: usize = 5;

/// How long the writer's parties take, in ticks.
const HOLD: u16 = 200;
const READY_TO_SEND: u16 = 50;
const READY_FOR_DATA: u16 = 60;
const END_MARK: u16 = 220;
const ACKNOWLEDGEMENT: u16 = 80;
const AFTER_ACKNOWLEDGEMENT: u16 = 40;
const SET_UP: u16 = 70;
const VALID: u16 = 60;
const HANDOVER: u16 = 30;
const END: u16 = 100;
/// No bytes: long enough after the acknowledgement for the sender's time-out.
const NOTHING_TO_SEND: u16 = 300;

/// Writes the recording of `bytes` to the beginning of `destination`. No step of
/// it is marked. The refusals are 10, then 11; they change nothing.
pub fn write(bytes: &[u8], destination: &mut [u8]) -> Answer {
    if bytes.len() > MOST_BYTES {
        return Answer::refusal(TOO_MANY_BYTES, 0);
    }
    let step_count = STEPS_FOR_EACH_BYTE * bytes.len() + STEPS_BESIDES;
    let length = HEADER_BYTES + STEP_BYTES * step_count;
    let room = destination.get_mut(..length);
    let Some((header, body)) = room.and_then(<[u8]>::split_first_chunk_mut) else {
        return Answer::refusal(DESTINATION_TOO_SMALL, 0);
    };
    let (steps, _) = body.as_chunks_mut();
    let mut pen = Pen {
        places: steps.iter_mut(),
        ticks: 0,
    };
    pen.put_transfer(bytes);
    put_header(header, step_count, pen.ticks, length);
    Answer {
        number: WRITTEN,
        tick: 0,
        step: 0,
        count: length as u32,
    }
}

fn put_header(header: &mut [u8; HEADER_BYTES], step_count: usize, ticks: u32, length: usize) {
    let [v0, v1] = VERSION.to_le_bytes();
    let [n0, n1] = (step_count as u16).to_le_bytes();
    let [o0, o1, o2, o3] = (HEADER_BYTES as u32).to_le_bytes();
    let [t0, t1, t2, t3] = ticks.to_le_bytes();
    let [l0, l1, l2, l3] = (length as u32).to_le_bytes();
    *header = [
        v0, v1, n0, n1, o0, o1, o2, o3, t0, t1, t2, t3, l0, l1, l2, l3,
    ];
}

/// Puts down one step after another, and sums their durations.
struct Pen<'a> {
    places: core::slice::IterMut<'a, StepBytes>,
    ticks: u32,
}

impl Pen<'_> {
    fn put_transfer(&mut self, bytes: &[u8]) {
        if let Some((last, others)) = bytes.split_last() {
            for byte in others {
                self.put_ready_to_send();
                self.put(READY_FOR_DATA, Lines::RELEASED);
                self.put_byte(*byte);
            }
            self.put_ready_to_send();
            self.put_end_mark(AFTER_ACKNOWLEDGEMENT);
            self.put_byte(*last);
            self.put_ready_to_send();
            self.put(END, Lines::RELEASED);
        } else {
            self.put_ready_to_send();
            self.put_end_mark(NOTHING_TO_SEND);
        }
    }

    fn put_ready_to_send(&mut self) {
        self.put(HOLD, Lines::PULLED);
        self.put(READY_TO_SEND, Lines::DATA);
    }

    fn put_end_mark(&mut self, after_acknowledgement: u16) {
        self.put(END_MARK, Lines::RELEASED);
        self.put(ACKNOWLEDGEMENT, Lines::DATA);
        self.put(after_acknowledgement, Lines::RELEASED);
    }

    fn put_byte(&mut self, byte: u8) {
        for bit in 0..u8::BITS {
            let (set_up, valid) = match byte >> bit & 1 {
                0 => (Lines::CLOCK, Lines::RELEASED),
                _ => (Lines::PULLED, Lines::DATA),
            };
            self.put(SET_UP, set_up);
            self.put(VALID, valid);
        }
        self.put(HANDOVER, Lines::CLOCK);
    }

    /// There is always a place: `write` made room for exactly the steps put.
    fn put(&mut self, duration: u16, lines: Lines) {
        if let Some(place) = self.places.next() {
            *place = Step::new(duration, lines).to_bytes();
            self.ticks += u32::from(duration);
        }
    }
}
