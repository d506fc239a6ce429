//! What happens at an answer that the library can't have given.

use crate::border::StationAnswer;

impl StationAnswer {
    /// Stops the program. The library and this crate are then of different ages, and no such answer may pass for anything.
    pub(crate) fn stop(self, entry: &str) -> ! {
        panic!(
            "station: the library answered with the number {}, which this crate does not know of the {entry} \
             (tick {}, step {}, count {}); the two are of different ages and must be built together",
            self.number, self.tick, self.step, self.count
        );
    }
}
