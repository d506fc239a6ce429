//! Names for the changes of a pair: which pull is whose turn, found by counting alone.

use crate::{Kind, Pair, Pull, Track};

/// A pair with as many pulls as a string takes, so that each can be called by its name. Bytes and bits count from 0.
pub(crate) struct Timetable<'a> {
    pub(crate) pair: &'a Pair,
    pub(crate) string: &'a [u8],
    clock: &'a [Pull],
    receiver: &'a [Pull],
}

/// The CLK pulls, if they are as many as `count` bytes take: the one from tick 0, and nine for each byte, namely one for
/// each bit's set-up and one after bit 8.
pub(crate) fn clock_pulls(clock: &Track, count: usize, kind: Kind) -> Result<&[Pull], String> {
    counted(clock, kind, 9 * count + 1, "the sender's CLK")
}

/// The pulls of the receiver, if they are as many as `count` bytes take: it holds DATA before each byte and after the last,
/// and acknowledges the end mark once.
fn receiver_pulls(data: &Track, count: usize, kind: Kind) -> Result<&[Pull], String> {
    let acknowledgements = usize::from(kind.has_end_mark());
    counted(
        data,
        kind,
        count + 1 + acknowledgements,
        "the receiver's DATA",
    )
}

/// The pulls of a track, if there are as many as there must be: "No other pulls occur." Those that begin where the lines
/// are free do not count.
fn counted<'a>(
    track: &'a Track,
    kind: Kind,
    count: usize,
    whose: &str,
) -> Result<&'a [Pull], String> {
    let pulls = track.begun_before(kind.free_from());
    if pulls.len() == count {
        return Ok(pulls);
    }
    let tick = pulls
        .get(count)
        .or(pulls.last())
        .map_or(0, |pull| pull.from);
    let up_to = match kind {
        Kind::Plain => String::new(),
        Kind::Command { finish } => format!(" up to the finish, tick {finish}"),
    };
    Err(format!(
        "byte {}, tick {tick}: no other pulls occur: {whose} is pulled {} times, not {count}{up_to}",
        pulls.len().min(count) / 9,
        pulls.len()
    ))
}

impl<'a> Timetable<'a> {
    /// Counts the pulls.
    pub(crate) fn new(pair: &'a Pair, string: &'a [u8]) -> Result<Timetable<'a>, String> {
        if string.is_empty() {
            return Err("a pair is for a string of one or more bytes".to_string());
        }
        Ok(Timetable {
            pair,
            string,
            clock: clock_pulls(&pair.clock, string.len(), pair.kind)?,
            receiver: receiver_pulls(&pair.receiver_data, string.len(), pair.kind)?,
        })
    }

    /// The place of the last byte.
    pub(crate) fn last(&self) -> usize {
        self.string.len() - 1
    }

    /// The CLK pull before a byte, or after the last one: from tick 0, or from the CLK pull after bit 8 of the byte before.
    pub(crate) fn clock_hold(&self, byte: usize) -> Pull {
        self.clock[9 * byte]
    }

    /// The tick at which the sender releases CLK, ready to send the byte; of the byte beyond the last too.
    pub(crate) fn clock_release(&self, byte: usize) -> u32 {
        self.clock_hold(byte).until
    }

    /// The CLK pull of a bit's set-up.
    pub(crate) fn set_up(&self, byte: usize, bit: usize) -> Pull {
        self.clock[9 * byte + 1 + bit]
    }

    /// The ticks in which a bit is valid: from CLK's release until it is pulled again.
    pub(crate) fn valid(&self, byte: usize, bit: usize) -> Pull {
        Pull {
            from: self.set_up(byte, bit).until,
            until: self.clock[9 * byte + 2 + bit].from,
        }
    }

    /// The CLK pull that begins the byte's bits.
    pub(crate) fn bits_begin(&self, byte: usize) -> u32 {
        self.set_up(byte, 0).from
    }

    /// Offset 0 of the handover: the CLK pull after bit 8.
    pub(crate) fn handover(&self, byte: usize) -> u32 {
        self.clock_hold(byte + 1).from
    }

    /// The receiver's hold before a byte, or after the last one: the pull just before the last hold is the acknowledgement,
    /// where there is an end mark.
    pub(crate) fn hold(&self, byte: usize) -> Pull {
        let acknowledged = byte > self.last() && self.pair.kind.has_end_mark();
        self.receiver[byte + usize::from(acknowledged)]
    }

    /// The receiver's acknowledgement of the end mark, if the byte has one.
    pub(crate) fn acknowledgement(&self, byte: usize) -> Option<Pull> {
        let marked = byte == self.last() && self.pair.kind.has_end_mark();
        marked.then(|| self.receiver[byte + 1])
    }

    /// "the receiver's take" of a byte.
    pub(crate) fn take(&self, byte: usize) -> u32 {
        self.hold(byte + 1).from
    }

    /// "the sender's letting go of DATA after bit 8 (where that bit is zero, it stands as offset 0)". None if the bit is
    /// one and the sender does not show it.
    pub(crate) fn let_go(&self, byte: usize) -> Option<u32> {
        let offset_0 = self.handover(byte);
        if self.bit(byte, 7) {
            self.pair
                .sender_data
                .at(offset_0 - 1)
                .map(|pull| pull.until)
        } else {
            Some(offset_0)
        }
    }

    /// Whether the sender does not pull DATA at any tick from `from` until `until`, but for those where the lines are free.
    pub(crate) fn sender_keeps_off(&self, from: u32, until: u32) -> bool {
        let until = until.min(self.pair.kind.free_from());
        !self.pair.sender_data.anywhere(from, until)
    }

    /// A bit of the string, "least significant first".
    pub(crate) fn bit(&self, byte: usize, bit: usize) -> bool {
        self.string[byte] >> bit & 1 == 1
    }
}
