//! Times of contenders that do the same work, measured in turn in one process.

use reference::memory::Rng;
use std::time::{Duration, Instant};

/// Measurements of every contender.
pub const ROUNDS: usize = 20;

/// The shortest measurement.
const LEAST: Duration = Duration::from_millis(1);

/// How often a length is tried before the measurements.
const TRIES: usize = 5;

pub type Contender<'a> = Box<dyn FnMut() + 'a>;

/// The nanoseconds of one call of each contender, round by round.
pub struct Times(Vec<Vec<f64>>);

impl Times {
    pub fn median(&self, which: usize) -> f64 {
        median(self.0[which].clone())
    }

    /// The median of a contender's time over another's in the same round: what slows a round slows both.
    pub fn ratio(&self, which: usize, to: usize) -> f64 {
        let rounds = self.0[which].iter().zip(&self.0[to]);
        median(rounds.map(|(time, other)| time / other).collect())
    }
}

pub fn times(contenders: &mut [Contender], rng: &mut Rng) -> Times {
    times_of(ROUNDS, LEAST, contenders, rng)
}

/// The same with so many measurements, none shorter than `least`.
pub fn times_of(
    rounds: usize,
    least: Duration,
    contenders: &mut [Contender],
    rng: &mut Rng,
) -> Times {
    let repeats = contenders.iter_mut().map(|each| repetitions(each, least));
    let repeats: Vec<u32> = repeats.collect();
    let mut times = vec![Vec::with_capacity(rounds); contenders.len()];
    for _ in 0..rounds {
        for which in shuffled(contenders.len(), rng) {
            let time = measure(&mut contenders[which], repeats[which]);
            times[which].push(time.as_nanos() as f64 / f64::from(repeats[which]));
        }
    }
    Times(times)
}

fn measure(contender: &mut Contender, repeats: u32) -> Duration {
    let start = Instant::now();
    for _ in 0..repeats {
        contender();
    }
    start.elapsed()
}

/// How many calls make one measurement long enough: about as long for every contender, however fast it is.
fn repetitions(contender: &mut Contender, least: Duration) -> u32 {
    let due = least * 2;
    let mut repeats = 1;
    let mut time = quickest(contender, repeats);
    while time < due {
        repeats *= 2;
        time = quickest(contender, repeats);
    }
    (f64::from(repeats) * due.as_secs_f64() / time.as_secs_f64()).ceil() as u32
}

/// The least of some tries: an interruption lengthens one of them.
fn quickest(contender: &mut Contender, repeats: u32) -> Duration {
    let tries = (0..TRIES).map(|_| measure(contender, repeats));
    tries.min().unwrap_or_default()
}

fn shuffled(length: usize, rng: &mut Rng) -> Vec<usize> {
    let mut order: Vec<usize> = (0..length).collect();
    for i in (1..length).rev() {
        order.swap(i, rng.below(i + 1));
    }
    order
}

fn median(mut times: Vec<f64>) -> f64 {
    times.sort_by(f64::total_cmp);
    let middle = times.len() / 2;
    (times[middle - 1] + times[middle]) / 2.0
}
