//! Who does the work, and the times of all of them in one measurement.

use bench::timing::{times, Contender, Times};
use reference::memory::Rng;

#[derive(Clone, Copy, PartialEq, Eq)]
pub enum Who {
    Library,
    Ordinary,
    Wordwise,
    Libspectrum,
    Memcpy,
    Memset,
}

impl Who {
    pub fn name(self) -> &'static str {
        match self {
            Who::Library => "library",
            Who::Ordinary => "ordinary",
            Who::Wordwise => "word-wise",
            Who::Libspectrum => "libspectrum",
            Who::Memcpy => "memcpy",
            Who::Memset => "memset",
        }
    }
}

/// Nothing is known of one who took no part.
pub struct Timed {
    /// The bytes of memory that are made or taken.
    bytes: usize,
    who: Vec<Who>,
    times: Times,
}

impl Timed {
    pub fn new(bytes: usize, contenders: Vec<(Who, Contender)>, rng: &mut Rng) -> Timed {
        let (who, mut contenders): (Vec<Who>, Vec<Contender>) = contenders.into_iter().unzip();
        Timed {
            bytes,
            who,
            times: times(&mut contenders, rng),
        }
    }

    fn place(&self, who: Who) -> Option<usize> {
        self.who.iter().position(|each| *each == who)
    }

    /// Median microseconds of all the work.
    pub fn micros(&self, who: Who) -> Option<f64> {
        Some(self.times.median(self.place(who)?) / 1000.0)
    }

    /// Median nanoseconds per byte of memory.
    pub fn nanos_per_byte(&self, who: Who) -> Option<f64> {
        Some(self.times.median(self.place(who)?) / self.bytes as f64)
    }

    /// One's time over another's.
    pub fn ratio(&self, who: Who, to: Who) -> Option<f64> {
        Some(self.times.ratio(self.place(who)?, self.place(to)?))
    }
}
