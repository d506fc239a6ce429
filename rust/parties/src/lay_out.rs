//! Spans laid out as tracks.

use crate::{Byte, Ending, Kind, Pair, Stretch, Transfer};

impl Transfer {
    /// Lays the spans out: the three tracks, and the pair's own two ticks for each byte, "the sender's letting go of DATA
    /// after bit 8 (where that bit is zero, it stands as offset 0) and the receiver's take".
    #[must_use]
    pub fn lay_out(&self) -> (Pair, Vec<u32>) {
        let (mut pair, mut ledger) = (Pair::default(), Vec::new());
        // Where the latest CLK pull and the receiver's latest take are.
        let mut clock = 0;
        let mut take = self.first_take;
        for (place, byte) in self.bytes.iter().enumerate() {
            let release = take + byte.hold;
            pair.clock.add(clock, release);
            let let_go = release + byte.ready_to_send;
            pair.receiver_data.add(take, let_go);
            let mut begin = let_go + byte.ready_for_data;
            if place + 1 == self.bytes.len() && self.ending == Ending::Plain {
                let end = begin + self.acknowledgement;
                pair.receiver_data.add(begin, end);
                begin = end + self.after_acknowledgement;
            }
            clock = lay_out_bits(byte, begin, &mut pair);
            pair.sender_data.add(clock, clock + byte.keep);
            take = clock + byte.take;
            ledger.extend([clock + byte.keep, take]);
        }
        match &self.ending {
            Ending::Plain => self.lay_out_end(clock, take, &mut pair),
            Ending::Command(stretches) => self.lay_out_finish(clock, take, stretches, &mut pair),
        }
        (pair, ledger)
    }

    /// The end of a plain transfer: the sender releases CLK, the receiver lets go, and there is silence.
    fn lay_out_end(&self, clock: u32, take: u32, pair: &mut Pair) {
        let release = take + self.last_hold;
        pair.clock.add(clock, release);
        let let_go = release + self.last_ready_to_send;
        pair.receiver_data.add(take, let_go);
        pair.total = let_go + self.silence;
    }

    /// The end of a command: both hold their lines in the finish tick too, and the stretches come after it.
    fn lay_out_finish(&self, clock: u32, take: u32, stretches: &[Stretch], pair: &mut Pair) {
        let finish = take + self.last_hold;
        pair.kind = Kind::Command { finish };
        pair.total = finish + 1;
        pair.clock.add(clock, pair.total);
        pair.receiver_data.add(take, pair.total);
        for stretch in stretches {
            lay_out_stretch(stretch, pair);
        }
    }

    /// The string of its bytes.
    #[must_use]
    pub fn string(&self) -> Vec<u8> {
        self.bytes.iter().map(|byte| byte.value).collect()
    }
}

/// Lays out a stretch from the ticks there are so far on.
fn lay_out_stretch(stretch: &Stretch, pair: &mut Pair) {
    let (from, until) = (pair.total, pair.total + stretch.ticks);
    for (pulled, track) in [
        (stretch.clock, &mut pair.clock),
        (stretch.sender_data, &mut pair.sender_data),
        (stretch.receiver_data, &mut pair.receiver_data),
        (stretch.service_request, &mut pair.service_request),
    ] {
        if pulled {
            track.add(from, until);
        }
    }
    pair.total = until;
}

/// Lays out a byte's bits from their first CLK pull on, and hands back the CLK pull after bit 8.
fn lay_out_bits(byte: &Byte, begin: u32, pair: &mut Pair) -> u32 {
    let mut clock = begin;
    for (place, bit) in byte.bits.iter().enumerate() {
        let until = clock + bit.set_up + bit.valid;
        pair.clock.add(clock, clock + bit.set_up);
        let one = byte.value >> place & 1 == 1;
        let mut moves = bit.moves;
        moves.sort_unstable();
        let moved = moves.iter().filter(|offset| **offset > 0).count();
        // DATA is pulled up to the first move if the bit is a one and the moves are even, or a zero and they are odd.
        let mut pulled = one == (moved % 2 == 0);
        let mut from = clock;
        for offset in &moves[moves.len() - moved..] {
            let change = until.min(clock + offset);
            if pulled {
                pair.sender_data.add(from, change);
            }
            pulled = !pulled;
            from = change;
        }
        if pulled {
            pair.sender_data.add(from, until);
        }
        clock = until;
    }
    clock
}
