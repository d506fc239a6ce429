//! A track: when something is pulled.

/// One pull, without a break.
#[derive(Clone, Copy, Debug, PartialEq, Eq)]
pub struct Pull {
    /// The first tick that shows it.
    pub from: u32,
    /// The first tick that no longer shows it.
    pub until: u32,
}

/// The pulls of one party on one line, or of a line: in rising order, with a tick or more between any two. So two tracks
/// are equal exactly if they are equal at every tick.
#[derive(Clone, Debug, Default, PartialEq, Eq)]
pub struct Track {
    pulls: Vec<Pull>,
}

impl Track {
    /// A track with no pull.
    #[must_use]
    pub fn new() -> Track {
        Track::default()
    }

    /// Adds a pull that begins no earlier than the latest one does. Where the two meet or overlap they become one; a pull
    /// of no ticks changes nothing.
    ///
    /// # Panics
    ///
    /// If it begins before the latest one does.
    pub fn add(&mut self, from: u32, until: u32) {
        if until <= from {
            return;
        }
        match self.pulls.last_mut() {
            Some(latest) if latest.from > from => panic!("pulls are added in rising order"),
            Some(latest) if latest.until >= from => latest.until = latest.until.max(until),
            _ => self.pulls.push(Pull { from, until }),
        }
    }

    /// The pulls, in rising order.
    #[must_use]
    pub fn pulls(&self) -> &[Pull] {
        &self.pulls
    }

    /// The pulls that begin before `tick`.
    pub(crate) fn begun_before(&self, tick: u32) -> &[Pull] {
        let count = self.pulls.partition_point(|pull| pull.from < tick);
        &self.pulls[..count]
    }

    /// The first pull that ends after `tick`.
    fn ending_after(&self, tick: u32) -> Option<Pull> {
        let place = self.pulls.partition_point(|pull| pull.until <= tick);
        self.pulls.get(place).copied()
    }

    /// The pull that `tick` belongs to.
    #[must_use]
    pub fn at(&self, tick: u32) -> Option<Pull> {
        self.ending_after(tick).filter(|pull| pull.from <= tick)
    }

    /// Whether every tick from `from` until `until` is pulled.
    #[must_use]
    pub fn throughout(&self, from: u32, until: u32) -> bool {
        from >= until || self.at(from).is_some_and(|pull| pull.until >= until)
    }

    /// Whether any tick from `from` until `until` is pulled.
    #[must_use]
    pub fn anywhere(&self, from: u32, until: u32) -> bool {
        from < until
            && self
                .ending_after(from)
                .is_some_and(|pull| pull.from < until)
    }

    /// What is pulled in `parts` too.
    #[must_use]
    pub fn inside(&self, parts: &Track) -> Track {
        let mut result = Track::new();
        for pull in &self.pulls {
            let first = parts.pulls.partition_point(|part| part.until <= pull.from);
            for part in parts.pulls[first..]
                .iter()
                .take_while(|part| part.from < pull.until)
            {
                result.add(pull.from.max(part.from), pull.until.min(part.until));
            }
        }
        result
    }

    /// What is pulled, but not in `parts`.
    #[must_use]
    pub fn outside(&self, parts: &Track) -> Track {
        let mut result = Track::new();
        for pull in &self.pulls {
            let mut from = pull.from;
            let first = parts.pulls.partition_point(|part| part.until <= pull.from);
            for part in parts.pulls[first..]
                .iter()
                .take_while(|part| part.from < pull.until)
            {
                result.add(from, part.from);
                from = part.until;
            }
            result.add(from, pull.until);
        }
        result
    }

    /// What is pulled in either.
    #[must_use]
    pub fn either(&self, other: &Track) -> Track {
        let mut result = Track::new();
        let (mut here, mut there) = (self.pulls.iter().peekable(), other.pulls.iter().peekable());
        loop {
            let next = match (here.peek(), there.peek()) {
                (Some(one), Some(two)) if one.from <= two.from => here.next(),
                (_, Some(_)) => there.next(),
                (_, None) => here.next(),
            };
            let Some(pull) = next else { return result };
            result.add(pull.from, pull.until);
        }
    }

    /// The first tick at which the two differ.
    #[must_use]
    pub fn first_difference(&self, other: &Track) -> Option<u32> {
        let only_here = self.outside(other);
        let only_there = other.outside(self);
        let begins = |track: &Track| track.pulls.first().map(|pull| pull.from);
        begins(&only_here)
            .into_iter()
            .chain(begins(&only_there))
            .min()
    }
}

#[cfg(test)]
mod tests {
    use super::*;

    fn track(pulls: &[(u32, u32)]) -> Track {
        let mut result = Track::new();
        for (from, until) in pulls {
            result.add(*from, *until);
        }
        result
    }

    /// Every track on six ticks.
    fn every() -> impl Iterator<Item = Track> {
        (0..64u32).map(|ticks| {
            let mut result = Track::new();
            for tick in (0..6).filter(|tick| ticks >> tick & 1 == 1) {
                result.add(tick, tick + 1);
            }
            result
        })
    }

    #[test]
    fn neighbouring_pulls_are_one() {
        assert_eq!(
            track(&[(1, 3), (3, 4), (6, 6), (6, 7)]),
            track(&[(1, 4), (6, 7)])
        );
    }

    #[test]
    fn a_tick_belongs_to_its_pull() {
        let track = track(&[(2, 4), (6, 7)]);
        let pulled: Vec<u32> = (0..9).filter(|tick| track.at(*tick).is_some()).collect();
        assert_eq!(pulled, [2, 3, 6]);
        assert!(track.throughout(2, 4) && !track.throughout(2, 5) && track.throughout(5, 5));
        assert!(track.anywhere(3, 5) && !track.anywhere(4, 6) && !track.anywhere(6, 6));
        assert_eq!(
            [0, 2, 3, 6, 7].map(|tick| track.begun_before(tick).len()),
            [0, 0, 1, 1, 2]
        );
    }

    #[test]
    fn parts_and_unions_are_right_at_every_tick() {
        for one in every() {
            for two in every() {
                let (inside, outside) = (one.inside(&two), one.outside(&two));
                let either = one.either(&two);
                let mut differ = None;
                for tick in (0..6).rev() {
                    let here = one.at(tick).is_some();
                    let there = two.at(tick).is_some();
                    assert_eq!(inside.at(tick).is_some(), here && there);
                    assert_eq!(outside.at(tick).is_some(), here && !there);
                    assert_eq!(either.at(tick).is_some(), here || there);
                    differ = if here != there { Some(tick) } else { differ };
                }
                assert_eq!(one.first_difference(&two), differ);
            }
        }
    }
}
