//! Explaining of files: one call compared, and the figures that were told.

use super::formats::Explaining;
use super::{note, outcome};
use crate::lent::LentPart;
use crate::report::Outcome;
use reference::memory::Rng;
use reference::z80::ExplainFigures;
use std::collections::{BTreeMap, BTreeSet};
use std::hint::black_box;
use std::ops::RangeInclusive;

/// Explains a file, each figure dirty before and between two cells that must stay, and compares it with the reference and
/// with the number and the offset that the library reads the file with.
pub fn explain_call(
    calls: Explaining,
    fills: &mut Rng,
    file: &[u8],
    read: (u32, u64),
) -> Result<ExplainFigures, String> {
    let told = (calls.reference)(file);
    let source = LentPart::holding(file, fills.word());
    let guard = fills.word();
    let mut cells = [guard; 9];
    (1..9).step_by(2).for_each(|at| cells[at] = fills.word());
    let [_, offset, _, block, _, found, _, due, _] = &mut cells;
    let number = (calls.library)(source.part(), offset, block, found, due);
    let cells = black_box(cells);
    let given = ExplainFigures {
        number,
        offset: cells[1],
        block: cells[3],
        found: cells[5],
        due: cells[7],
    };
    let mut wrong = Vec::new();
    if given != told {
        wrong.push(format!("{given:?}, should be {told:?}"));
    }
    if (given.number, given.offset) != read {
        wrong.push(format!("{given:?}, but read as {read:?}"));
    }
    if (0..9).step_by(2).any(|at| cells[at] != guard) {
        wrong.push("a cell beside the four figures was changed".into());
    }
    note(&mut wrong, "file", source.difference(file));
    outcome(wrong).map(|()| told)
}

/// Which ordinals, what found and what due each number was told with.
#[derive(Default)]
pub struct FigureCounts {
    files: u64,
    told: BTreeMap<u32, BTreeSet<(u64, u64, u64)>>,
}

/// The numbers that are told with what was found and what was due.
const WITH_FIGURES: [u32; 4] = [2, 6, 12, 13];

impl FigureCounts {
    pub fn add(&mut self, told: &ExplainFigures) {
        self.files += 1;
        let figures = (told.block, told.found, told.due);
        self.told.entry(told.number).or_default().insert(figures);
    }

    fn of(&self, number: u32) -> impl Iterator<Item = (u64, u64, u64)> + '_ {
        self.told.get(&number).into_iter().flatten().copied()
    }

    /// The ordinals that a number was told with.
    pub fn blocks(&self, number: u32) -> BTreeSet<u64> {
        self.of(number).map(|(block, _, _)| block).collect()
    }

    /// What was due each time that a number was told.
    pub fn dues(&self, number: u32) -> BTreeSet<u64> {
        self.of(number).map(|(_, _, due)| due).collect()
    }

    /// Prints how many there were. Enough files were explained, and numbers without figures were told with 0 and 0 alone.
    pub fn files(&self, least: u64) -> Outcome {
        println!("    {} files explained", self.files);
        for number in self.told.keys() {
            let (blocks, dues) = (self.blocks(*number), self.dues(*number));
            let many = self.of(*number).count();
            println!("    {number}  {many} figures, blocks {blocks:?}, due {dues:?}");
            let bare = self
                .of(*number)
                .all(|(_, found, due)| (found, due) == (0, 0));
            if bare == WITH_FIGURES.contains(number) {
                return Err(format!("{number} has figures, or has none"));
            }
        }
        match self.files < least {
            true => Err(format!("only {} files were explained", self.files)),
            false => Ok(()),
        }
    }

    /// Each of these numbers was told in each of these blocks and in no other, and no other number was told.
    pub fn expect_blocks(&self, all: &[(u32, RangeInclusive<u64>)]) -> Outcome {
        for (number, blocks) in all {
            let told = self.blocks(*number);
            if told != blocks.clone().collect() {
                return Err(format!("{number} in blocks {told:?}, not {blocks:?}"));
            }
        }
        match self.told.len() == all.len() {
            true => Ok(()),
            false => Err(format!("numbers {:?}", self.told.keys())),
        }
    }

    /// A number was told with each of these due and with no other.
    pub fn expect_dues(&self, number: u32, all: &[u64]) -> Outcome {
        let told = self.dues(number);
        match told == all.iter().copied().collect() {
            true => Ok(()),
            false => Err(format!("{number} was told with {told:?} due, not {all:?}")),
        }
    }

    /// A number was told with each of these pairs of what was found and what was due.
    pub fn expect_pairs(
        &self,
        number: u32,
        pairs: impl IntoIterator<Item = (u64, u64)>,
    ) -> Outcome {
        let told: BTreeSet<(u64, u64)> = self.of(number).map(|(_, f, d)| (f, d)).collect();
        match pairs.into_iter().find(|pair| !told.contains(pair)) {
            Some((found, due)) => Err(format!("{number} was never told with {found}, {due}")),
            None => Ok(()),
        }
    }
}
