//! What an input is run on: both sides of every comparison.

use super::files::FormatTarget;
use super::input::{Input, InputMode, Picked};
use super::log;
use super::memory::described;
use compare::calls::journal;
use compare::lent::LentPart;
use compare::report::{Group, Outcome};
use reference::memory::{Rng, PAGE};

/// The lengths of ROMs to look at.
const ROMS: [usize; 5] = [PAGE, 2 * PAGE, 0, PAGE - 1, 3 * PAGE];

pub struct Target {
    /// `.z80` files and SCS files.
    pub formats: [FormatTarget; 2],
    pub journal: journal::JournalChecker,
    pub roms: [LentPart; ROMS.len()],
    pub calls: Group,
    /// How many calls were also compared with the model.
    pub modelled: u64,
}

impl Default for Target {
    fn default() -> Target {
        Target {
            formats: [FormatTarget::z80(), FormatTarget::scs()],
            journal: journal::JournalChecker::new(0),
            roms: ROMS.map(|length| LentPart::new(length, 3)),
            calls: Group::default(),
            modelled: 0,
        }
    }
}

impl Target {
    /// Runs one input, the same way every time. What differs, if anything.
    pub fn run(&mut self, bytes: &[u8]) -> Outcome {
        let seed = bytes.len() as u64;
        for format in &mut self.formats {
            format.checker.fills = Rng::new(seed);
        }
        self.journal.library.fills = Rng::new(seed);
        let mut input = Input::new(bytes);
        let mode = input.mode();
        let picked = Picked::of(input.byte());
        match mode {
            InputMode::Read => self.read(&picked, input.rest()),
            InputMode::Write => self.write(&picked, &mut input),
            InputMode::Log => log::run(self, &picked, &mut input),
        }
    }

    /// Bytes that each format takes for a file of its own.
    fn read(&mut self, picked: &Picked, file: &[u8]) -> Outcome {
        for format in &mut self.formats {
            format.read(&mut self.calls, picked, file)?;
        }
        Ok(())
    }

    /// A machine and its memory, written in each format.
    fn write(&mut self, picked: &Picked, input: &mut Input) -> Outcome {
        let header = input.header(picked.header);
        let memory = described(input, picked.area);
        for format in &mut self.formats {
            format.write(&mut self.calls, picked, &header, &memory)?;
        }
        Ok(())
    }
}
