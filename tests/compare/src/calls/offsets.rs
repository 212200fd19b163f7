//! The offsets that reading tells: which numbers have one, and at which places of a file each of them was told.

use super::seen::NUMBERS;
use crate::report::Outcome;
use std::collections::{BTreeMap, BTreeSet};
use std::ops::RangeInclusive;

/// Different offsets that a comparison of generated files must at least have of each number that has one.
pub const LEAST_OFFSETS: usize = 100;

/// The different offsets that each number was told with.
#[derive(Default)]
pub struct OffsetCounts(BTreeMap<usize, BTreeSet<u64>>);

impl OffsetCounts {
    pub fn add(&mut self, number: u32, offset: u64) {
        self.0.entry(number as usize).or_default().insert(offset);
    }

    /// Prints how many there were. Each number that has an offset was told with some, never with 0, and every other
    /// number and an accepted file with 0 alone.
    pub fn all(&self, with_offset: &[usize], least: usize) -> Outcome {
        let placed = self.0.iter().filter(|(n, _)| with_offset.contains(n));
        let list: Vec<String> = placed.map(|(n, o)| format!("{n}: {}", o.len())).collect();
        println!("    offsets  {}", list.join(", "));
        for number in 0..NUMBERS {
            let offsets = self.0.get(&number).into_iter().flatten();
            let (zeros, others): (Vec<u64>, Vec<u64>) = offsets.partition(|o| **o == 0);
            let is_right = match with_offset.contains(&number) {
                true => zeros.is_empty() && others.len() >= least,
                false => others.is_empty(),
            };
            if !is_right {
                let told = zeros.len() + others.len();
                return Err(format!("{number} was told with {told} offsets: {others:?}"));
            }
        }
        Ok(())
    }
}

/// A refusal that a group knows before, and the first and the last offset that its number can have in such a file.
pub struct KnownRefusal {
    pub number: u32,
    pub offset: usize,
    pub possible: RangeInclusive<usize>,
}

#[derive(Debug, Clone, Copy, PartialEq, Eq, PartialOrd, Ord)]
pub enum OffsetPlace {
    First,
    Middle,
    Last,
    /// The only offset that the number can have in this file.
    Only,
}

/// Where a number is told that can have many offsets in a file.
pub const MANY_PLACES: &[OffsetPlace] =
    &[OffsetPlace::First, OffsetPlace::Middle, OffsetPlace::Last];
pub const ONE_PLACE: &[OffsetPlace] = &[OffsetPlace::Only];

impl KnownRefusal {
    /// A number that can have no other offset.
    pub fn only(number: u32, offset: usize) -> KnownRefusal {
        KnownRefusal {
            number,
            offset,
            possible: offset..=offset,
        }
    }

    fn place(&self) -> Option<OffsetPlace> {
        let (first, last) = (*self.possible.start(), *self.possible.end());
        match self.offset {
            _ if !self.possible.contains(&self.offset) => None,
            _ if first == last => Some(OffsetPlace::Only),
            offset if offset == first => Some(OffsetPlace::First),
            offset if offset == last => Some(OffsetPlace::Last),
            _ => Some(OffsetPlace::Middle),
        }
    }
}

/// How often each number was told at each place, by the kind of file.
#[derive(Default)]
pub struct PlaceCounts(BTreeMap<(&'static str, u32), BTreeMap<OffsetPlace, u64>>);

impl PlaceCounts {
    pub fn add(&mut self, kind: &'static str, known: &KnownRefusal) -> Outcome {
        let (number, offset) = (known.number, known.offset);
        let Some(place) = known.place() else {
            let possible = &known.possible;
            return Err(format!("{number} at {offset} is not in {possible:?}"));
        };
        let counts = self.0.entry((kind, number)).or_default();
        *counts.entry(place).or_default() += 1;
        Ok(())
    }

    /// Prints the counts. Each of these numbers was told at each of these places in each kind of file, and no other.
    pub fn all(&self, due: &[(&'static str, u32, &[OffsetPlace])]) -> Outcome {
        for ((kind, number), counts) in &self.0 {
            println!("    {number} in {kind}  {counts:?}");
        }
        for (kind, number, places) in due {
            let counts = self.0.get(&(*kind, *number));
            let told = |place| counts.is_some_and(|counts| counts.contains_key(place));
            if let Some(place) = places.iter().find(|place| !told(place)) {
                return Err(format!("{number} in {kind} was never told at {place:?}"));
            }
        }
        match self.0.len() == due.len() {
            true => Ok(()),
            false => Err(format!(
                "{} kinds of refusal, not {}",
                self.0.len(),
                due.len()
            )),
        }
    }
}
