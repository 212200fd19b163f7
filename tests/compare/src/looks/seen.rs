//! What the looks answered and told.

use compare::report::Outcome;
use reference::machine::PAIRS;
use std::collections::BTreeMap;

#[derive(Debug, Clone, Copy, PartialEq, Eq, PartialOrd, Ord)]
pub enum Look {
    Model,
    Pair,
    Place,
}

/// Every number of each look.
const LOOK_NUMBERS: [(Look, &[u32]); 3] = [
    (Look::Model, &[0, 20]),
    (Look::Pair, &[0, 20, 32]),
    (Look::Place, &[0, 20]),
];

#[derive(Default)]
pub struct LookCounts {
    numbers: BTreeMap<(Look, u32), u64>,
    /// How often an accepted look told of these: model and attachment, the pair asked for, or in_rom and page.
    told: BTreeMap<(Look, [u8; 2]), u64>,
}

impl LookCounts {
    pub fn add(&mut self, look: Look, number: u32, about: [u8; 2]) {
        *self.numbers.entry((look, number)).or_default() += 1;
        if number == 0 {
            *self.told.entry((look, about)).or_default() += 1;
        }
    }

    /// Prints the counts. Each look answered each of its numbers and no other.
    pub fn numbers(&self) -> Outcome {
        for (look, _) in LOOK_NUMBERS {
            let counts = self.numbers.iter().filter(|((of, _), _)| *of == look);
            let list: Vec<String> = counts
                .map(|((_, n), count)| format!("{n}: {count}"))
                .collect();
            println!("    {look:?}  {}", list.join(", "));
        }
        let all = LOOK_NUMBERS
            .into_iter()
            .flat_map(|(look, numbers)| numbers.iter().map(move |n| (look, *n)));
        same(self.numbers.keys().copied().collect(), all.collect())
    }

    /// Every model with every attachment, every pair, ROM and every page were told of, and nothing else.
    pub fn figures(&self) -> Outcome {
        let kinds = (0..2)
            .flat_map(|model| (0..3).map(move |attachment| (Look::Model, [model, attachment])));
        let pairs = (0..PAIRS).map(|pair| (Look::Pair, [pair, 0]));
        let pages = (0..8).map(|page| (Look::Place, [0, page]));
        let all = kinds
            .chain(pairs)
            .chain(pages)
            .chain([(Look::Place, [1, 0])]);
        same(self.told.keys().copied().collect(), all.collect())
    }
}

fn same<T: std::fmt::Debug + PartialEq>(given: Vec<T>, due: Vec<T>) -> Outcome {
    match given == due {
        true => Ok(()),
        false => Err(format!("{given:?}, should be {due:?}")),
    }
}
