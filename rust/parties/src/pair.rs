//! A pair: a sender track and a receiver track, and what is nobody's of the two.

use crate::{Kind, Step, Track, LONGEST};

/// "A *pair* for a string of one or more bytes is a sender track (CLK and DATA pulls at each tick) and a receiver track
/// (DATA pulls)". Whether it keeps the rules is another matter: [`check_pair`](crate::check_pair) says.
#[derive(Clone, Debug, Default, PartialEq, Eq)]
pub struct Pair {
    /// The sender's CLK pulls.
    pub clock: Track,
    /// The sender's DATA pulls.
    pub sender_data: Track,
    /// The receiver's DATA pulls.
    pub receiver_data: Track,
    /// SRQ, which is neither's and changes no answer.
    pub service_request: Track,
    /// Of which kind of recording it is a pair.
    pub kind: Kind,
    /// How many ticks there are.
    pub total: u32,
}

/// The ATN bit of a step's lines.
const ATTENTION: u8 = 1;
/// The CLK bit of a step's lines.
const CLOCK: u8 = 2;
/// The DATA bit of a step's lines.
const DATA: u8 = 4;
/// The SRQ bit of a step's lines.
const SERVICE_REQUEST: u8 = 8;

impl Pair {
    /// The recording that the pair gives, as few steps as there can be and none of them marked: ATN is what its kind says,
    /// "CLK is the sender's and DATA is pulled exactly when either pulls".
    #[must_use]
    pub fn steps(&self) -> Vec<Step> {
        let mut steps = Vec::new();
        let attention = self.kind.attention();
        let mut tracks = [
            Cursor::new(&attention, ATTENTION),
            Cursor::new(&self.clock, CLOCK),
            Cursor::new(&self.sender_data, DATA),
            Cursor::new(&self.receiver_data, DATA),
            Cursor::new(&self.service_request, SERVICE_REQUEST),
        ];
        let mut tick = 0;
        while tick < self.total {
            let mut lines = 0;
            let mut until = self.total;
            for track in &mut tracks {
                let (pulled, change) = track.at(tick);
                lines |= pulled;
                until = until.min(change);
            }
            append(&mut steps, until - tick, lines);
            tick = until;
        }
        steps
    }
}

/// Adds that many ticks of these lines, to the latest step where it shows the same and has room.
fn append(steps: &mut Vec<Step>, ticks: u32, lines: u8) {
    let most = u32::from(LONGEST);
    let mut left = ticks;
    if let Some(latest) = steps.last_mut().filter(|latest| latest.lines == lines) {
        let more = left.min(most - u32::from(latest.duration));
        latest.duration += more as u16;
        left -= more;
    }
    while left > 0 {
        let duration = left.min(most) as u16;
        steps.push(Step::new(duration, lines));
        left -= u32::from(duration);
    }
}

/// Walks along one track.
struct Cursor<'a> {
    track: &'a Track,
    line: u8,
    place: usize,
}

impl Cursor<'_> {
    fn new(track: &Track, line: u8) -> Cursor<'_> {
        Cursor {
            track,
            line,
            place: 0,
        }
    }

    /// The line's bit if it is pulled at `tick`, and the tick of the next change. `tick` never goes back.
    fn at(&mut self, tick: u32) -> (u8, u32) {
        while let Some(pull) = self.track.pulls().get(self.place) {
            if tick < pull.from {
                return (0, pull.from);
            }
            if tick < pull.until {
                return (self.line, pull.until);
            }
            self.place += 1;
        }
        (0, u32::MAX)
    }
}
