//! Steps, and the file that holds them: document 01, "Recording layout".

/// The most steps that a recording may have.
pub const MOST_STEPS: usize = 16_000;

/// The longest duration of a step.
pub const LONGEST: u16 = 65_535;

/// The header's length.
const HEADER: usize = 16;

/// One step of a recording.
#[derive(Clone, Copy, Debug, PartialEq, Eq)]
pub struct Step {
    /// How many ticks, 1 to 65,535.
    pub duration: u16,
    /// Bit 0 ATN, 1 CLK, 2 DATA, 3 SRQ; 1 is pulled.
    pub lines: u8,
    /// The last byte: [`MARKED`] if ticks were lost before the step, otherwise 0.
    pub mark: u8,
}

/// Request #103: "The recorder now marks a step before which ticks were lost: its last byte is 1."
pub const MARKED: u8 = 1;

impl Step {
    /// A step without a mark.
    #[must_use]
    pub const fn new(duration: u16, lines: u8) -> Step {
        Step {
            duration,
            lines,
            mark: 0,
        }
    }

    /// The same step, marked.
    #[must_use]
    pub const fn marked(self) -> Step {
        Step {
            mark: MARKED,
            ..self
        }
    }
}

/// How many ticks the steps have.
#[must_use]
pub fn ticks_of(steps: &[Step]) -> u32 {
    steps.iter().map(|step| u32::from(step.duration)).sum()
}

/// The recording of these steps, its header fields right. A step is put down as it is, also where no recording may have it.
#[must_use]
pub fn file_of(steps: &[Step]) -> Vec<u8> {
    let length = HEADER + 4 * steps.len();
    let mut file = Vec::with_capacity(length);
    file.extend(1u16.to_le_bytes());
    file.extend((steps.len() as u16).to_le_bytes());
    file.extend((HEADER as u32).to_le_bytes());
    file.extend(ticks_of(steps).to_le_bytes());
    file.extend((length as u32).to_le_bytes());
    for step in steps {
        let [low, high] = step.duration.to_le_bytes();
        file.extend([low, high, step.lines, step.mark]);
    }
    file
}

/// The other way round: the steps of a recording of good form.
#[must_use]
pub fn steps_of(file: &[u8]) -> Vec<Step> {
    let step = |bytes: &[u8]| Step {
        duration: u16::from_le_bytes([bytes[0], bytes[1]]),
        lines: bytes[2],
        mark: bytes[3],
    };
    file[HEADER..].chunks_exact(4).map(step).collect()
}
