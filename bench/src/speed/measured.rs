//! One direction of the work, and its times over the files.

use super::{StoredFile, Timed, Who};
use reference::memory::Rng;

pub struct Direction {
    pub name: &'static str,
    /// What is done with a file.
    pub what: &'static str,
    /// Times it over the files; nothing where they give no work.
    pub time: fn(&[StoredFile], &mut Rng) -> Option<Timed>,
}

/// The times of each file, and of all together.
pub struct DirectionTimes {
    pub direction: Direction,
    pub each: Vec<Option<Timed>>,
    pub all: Option<Timed>,
}

impl DirectionTimes {
    pub fn of(direction: Direction) -> DirectionTimes {
        DirectionTimes {
            direction,
            each: Vec::new(),
            all: None,
        }
    }

    /// One's time over another's for all files together.
    pub fn ratio(&self, who: Who, to: Who) -> Option<f64> {
        self.all.as_ref()?.ratio(who, to)
    }

    /// The same for the file where it is highest.
    pub fn highest_ratio(&self, who: Who, to: Who) -> Option<f64> {
        let ratios = self.each.iter().flatten().flat_map(|t| t.ratio(who, to));
        ratios.reduce(f64::max)
    }
}
