//! A recording's bytes read into the ticks at which each line is pulled: document 01, "Recording layout".

use crate::{Track, MARKED};

/// What a recording means: for each line the ticks at which it is pulled, and where ticks were lost. SRQ is left out, for
/// it changes no answer.
#[derive(Clone, Debug, Default, PartialEq, Eq)]
pub struct Lines {
    /// ATN.
    pub attention: Track,
    /// CLK.
    pub clock: Track,
    /// DATA.
    pub data: Track,
    /// The first tick of the first marked step, before which ticks were lost; none if no step is marked.
    pub first_mark: Option<u32>,
    /// How many ticks there are.
    pub total: u32,
}

/// The header's length.
const HEADER: usize = 16;

impl Lines {
    /// Reads a recording of good form.
    ///
    /// # Errors
    ///
    /// What is wrong with its form.
    pub fn read(recording: &[u8]) -> Result<Lines, String> {
        let steps = checked_steps(recording)?;
        let mut lines = Lines::default();
        for (place, step) in steps.chunks_exact(4).enumerate() {
            let duration = u16::from_le_bytes([step[0], step[1]]);
            if duration == 0 || step[2] > 15 || step[3] > MARKED {
                return Err(format!("not of good form: step {place} is {step:?}"));
            }
            if step[3] == MARKED {
                lines.first_mark.get_or_insert(lines.total);
            }
            lines.add(u32::from(duration), step[2]);
        }
        match number(recording, 8) {
            total if total == lines.total => Ok(lines),
            total => Err(format!(
                "not of good form: the total is {}, not {total}",
                lines.total
            )),
        }
    }

    /// The first tick with ATN released, where a command has its finish; the number of ticks if there is none.
    #[must_use]
    pub fn finish(&self) -> u32 {
        self.attention.at(0).map_or(0, |pull| pull.until)
    }

    /// Adds a step's ticks.
    fn add(&mut self, duration: u32, shown: u8) {
        let (from, until) = (self.total, self.total + duration);
        let tracks = [&mut self.attention, &mut self.clock, &mut self.data];
        for (bit, track) in tracks.into_iter().enumerate() {
            if shown >> bit & 1 == 1 {
                track.add(from, until);
            }
        }
        self.total = until;
    }
}

/// The four bytes at a place of the header, as a number.
fn number(recording: &[u8], place: usize) -> u32 {
    let bytes = &recording[place..place + 4];
    u32::from_le_bytes([bytes[0], bytes[1], bytes[2], bytes[3]])
}

/// The bytes of the steps, if version, step count, offset and both lengths are right.
fn checked_steps(recording: &[u8]) -> Result<&[u8], String> {
    if recording.len() < HEADER {
        return Err("not of good form: no header".to_string());
    }
    let version = u16::from_le_bytes([recording[0], recording[1]]);
    let count = u16::from_le_bytes([recording[2], recording[3]]);
    let length = HEADER + 4 * usize::from(count);
    let good = version == 1
        && count <= 16_000
        && number(recording, 4) == 16
        && number(recording, 12) as usize == length
        && recording.len() == length;
    if !good {
        return Err(format!(
            "not of good form: the header is {:?}",
            &recording[..HEADER]
        ));
    }
    Ok(&recording[HEADER..])
}
