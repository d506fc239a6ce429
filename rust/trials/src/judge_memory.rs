//! The memory that is lent to both judges, the same pattern in both, and what must have become of it.

use crate::lent::{Lent, Pattern, Place};
use crate::outcome::same;
use by_steps::Answer;
use parties::Random;

/// The byte buffers that are lent: none, one below, at and one above the room, and large.
const BYTE_ROOMS: [usize; 5] = [0, 999, 1000, 1001, 1700];
/// The ledgers.
const LEDGER_ROOMS: [usize; 5] = [0, 1999, 2000, 2001, 3100];
/// The first of the five that is enough.
const ENOUGH: usize = 2;

/// A recording, and two buffers for each judge.
pub struct JudgeMemory {
    byte_pattern: Pattern<u8>,
    tick_pattern: Pattern<u32>,
    /// The recording, for the library.
    pub recording: Lent<u8>,
    /// The library's byte buffer.
    pub bytes: Lent<u8>,
    /// The library's ledger.
    pub ledger: Lent<u32>,
    /// The other judge's byte buffer.
    pub other_bytes: Lent<u8>,
    /// The other judge's ledger.
    pub other_ledger: Lent<u32>,
}

/// Where a case's memory is lent.
#[derive(Clone, Copy)]
pub struct Places {
    /// The recording.
    pub recording: Place,
    /// The byte buffer.
    pub bytes: Place,
    /// The ledger.
    pub ledger: Place,
    /// Whether both buffers have room enough.
    pub enough: bool,
}

impl JudgeMemory {
    /// The memory, its patterns drawn.
    pub fn new() -> JudgeMemory {
        let mut random = Random::new(0x5EED);
        JudgeMemory {
            byte_pattern: Pattern::new(1 << 17, || random.byte()),
            tick_pattern: Pattern::new(1 << 14, || random.bits() as u32),
            recording: Lent::new(),
            bytes: Lent::new(),
            ledger: Lent::new(),
            other_bytes: Lent::new(),
            other_ledger: Lent::new(),
        }
    }

    /// Draws how much is lent, mostly enough, and fills it all.
    pub fn lend(&mut self, random: &mut Random, file: &[u8]) -> Places {
        let least = if random.one_in(16) { 0 } else { ENOUGH };
        let byte_room = least + random.place(BYTE_ROOMS.len() - least);
        let ledger_room = least + random.place(LEDGER_ROOMS.len() - least);
        let places = Places {
            recording: Place::draw(random, file.len(), &self.byte_pattern),
            bytes: Place::draw(random, BYTE_ROOMS[byte_room], &self.byte_pattern),
            ledger: Place::draw(random, LEDGER_ROOMS[ledger_room], &self.tick_pattern),
            enough: byte_room >= ENOUGH && ledger_room >= ENOUGH,
        };
        self.recording.fill(places.recording, &self.byte_pattern);
        let recording = self.recording.part_mut(places.recording);
        recording.copy_from_slice(file);
        self.bytes.fill(places.bytes, &self.byte_pattern);
        self.other_bytes.fill(places.bytes, &self.byte_pattern);
        self.ledger.fill(places.ledger, &self.tick_pattern);
        self.other_ledger.fill(places.ledger, &self.tick_pattern);
        places
    }

    /// Both buffers whole are what the other judge left; beyond the answer's bytes and ticks, and on both sides of what was
    /// lent, all is as it was; and so is the recording.
    pub fn check(&self, count: usize, places: Places, file: &[u8]) -> Result<(), String> {
        let (bytes, other) = (
            self.bytes.part(places.bytes),
            self.other_bytes.part(places.bytes),
        );
        same(bytes, other, "the byte buffers differ")?;
        let (ledger, other) = (
            self.ledger.part(places.ledger),
            self.other_ledger.part(places.ledger),
        );
        same(ledger, other, "the ledgers differ")?;
        let recording = self.recording.part(places.recording);
        same(recording, file, "the recording changed")?;
        self.bytes
            .check_rest(count, places.bytes, &self.byte_pattern)?;
        self.ledger
            .check_rest(2 * count, places.ledger, &self.tick_pattern)?;
        self.recording
            .check_rest(file.len(), places.recording, &self.byte_pattern)
    }

    /// The string and the ledger that the library left: `count` bytes and twice as many ticks.
    pub fn left(&self, answer: Answer, places: Places) -> (&[u8], &[u32]) {
        let count = answer.count as usize;
        let string = &self.bytes.part(places.bytes)[..count];
        let ledger = &self.ledger.part(places.ledger)[..2 * count];
        (string, ledger)
    }
}
