//! Random lists of calls: stretches of corrections, of undos and of redos, refused calls among them.

use reference::journal::{Call, Correction, Replay, LOCK};
use reference::machine::{page_at, Model, PAIRS};
use reference::memory::{Rng, PAGE};

#[derive(Clone, Copy)]
enum Stretch {
    /// Good corrections until so many stand.
    Fill(u64),
    Correct,
    Undo,
    Redo,
    Any,
}

/// Makes one list, call by call, from the model's state.
pub struct Lister<'a> {
    rng: &'a mut Rng,
    stretch: Stretch,
    left: usize,
    longest: usize,
    /// One OUT in this many locks paging.
    locks: usize,
    offsets: [u16; 6],
}

impl Lister<'_> {
    /// Begins with corrections until so many stand; later stretches have at most `longest` calls.
    pub fn new(rng: &mut Rng, first: u64, longest: usize) -> Lister<'_> {
        let locks = rng.pick(&[20, 200, 5_000]);
        let any = rng.below(PAGE) as u16;
        Lister {
            rng,
            stretch: Stretch::Fill(first),
            left: usize::MAX,
            longest,
            locks,
            offsets: [0, 1, 0x10, 0x3FFF, any, any ^ 0x2000],
        }
    }

    pub fn next(&mut self, model: &Replay) -> Call {
        if matches!(self.stretch, Stretch::Fill(first) if model.standing() >= first) {
            self.left = 0;
        }
        if self.left == 0 {
            self.begin();
        }
        self.left -= 1;
        match self.stretch {
            Stretch::Fill(_) if !self.rng.once_in(200) => Call::Correct(self.good(model)),
            _ if self.rng.once_in(40) => self.any(model),
            Stretch::Correct => Call::Correct(self.correction(model)),
            // an undone list goes on with redos, a redone one with undos
            Stretch::Undo if model.standing() == 0 => self.turn(Stretch::Redo),
            Stretch::Redo if model.standing() == model.total() => self.turn(Stretch::Undo),
            Stretch::Undo => Call::Undo,
            Stretch::Redo => Call::Redo,
            Stretch::Any | Stretch::Fill(_) => self.any(model),
        }
    }

    /// Another stretch; after undos most often redos.
    fn begin(&mut self) {
        self.left = 1 + self.rng.below(self.longest);
        self.stretch = match self.rng.below(10) {
            0..=5 if matches!(self.stretch, Stretch::Undo) => Stretch::Redo,
            0..=3 => Stretch::Correct,
            4..=6 => Stretch::Undo,
            7..=8 => Stretch::Redo,
            _ => Stretch::Any,
        };
    }

    /// The refused call at an end, then half the time the other direction.
    fn turn(&mut self, other: Stretch) -> Call {
        let call = match self.stretch {
            Stretch::Undo => Call::Undo,
            _ => Call::Redo,
        };
        self.left = self.left.min(3);
        if self.rng.once_in(2) {
            (self.stretch, self.left) = (other, 1 + self.rng.below(self.longest));
        }
        call
    }

    fn any(&mut self, model: &Replay) -> Call {
        match self.rng.below(5) {
            0..=1 => Call::Undo,
            2 => Call::Redo,
            _ => Call::Correct(self.correction(model)),
        }
    }

    fn correction(&mut self, model: &Replay) -> Correction {
        let is_48 = model.now().machine.model == Model::K48;
        match self.rng.below(20) {
            0..=3 if !is_48 || self.rng.once_in(20) => self.out(model),
            4..=6 => self.pair(model),
            _ => self.byte(model),
        }
    }

    /// A correction that only a full log refuses.
    fn good(&mut self, model: &Replay) -> Correction {
        let machine = &model.now().machine;
        loop {
            let correction = self.correction(model);
            let is_good = match correction {
                Correction::Byte { address, .. } => address >= 0x4000,
                Correction::Pair { pair, .. } => pair < PAIRS,
                Correction::Out { .. } => {
                    machine.model == Model::K128 && machine.paging & LOCK == 0
                }
            };
            if is_good {
                return correction;
            }
        }
    }

    fn out(&mut self, model: &Replay) -> Correction {
        let mut value = match self.rng.below(8) {
            0 => model.now().machine.paging,
            1..=5 => self.rng.byte() & 7,
            _ => self.rng.byte(),
        };
        value &= !LOCK;
        if self.rng.once_in(self.locks) {
            value |= LOCK;
        }
        Correction::Out { value }
    }

    fn pair(&mut self, model: &Replay) -> Correction {
        let rng = &mut *self.rng;
        let pair = match rng.once_in(16) {
            true => rng.pick(&[12, 13, 255, 128]),
            false => rng.below(PAIRS.into()) as u8,
        };
        let value = match rng.below(6) {
            0 if pair < PAIRS => model.now().machine.pair(pair),
            1 => rng.pick(&[0, 0x00FF, 0xFF00, 0xFFFF]),
            _ => rng.word() as u16,
        };
        Correction::Pair { pair, value }
    }

    fn byte(&mut self, model: &Replay) -> Correction {
        let rng = &mut *self.rng;
        let address = match rng.below(40) {
            0..=19 => 0xC000 | rng.pick(&self.offsets),
            20..=24 => 0xC000 | rng.word() as u16,
            25..=28 => 0x4000 | rng.pick(&self.offsets),
            29..=31 => 0x8000 | rng.pick(&self.offsets),
            32..=34 => rng.pick(&[0x3FFF, 0x4000, 0x7FFF, 0x8000, 0xBFFF, 0xC000, 0xFFFF]),
            35 => rng.word() as u16 & 0x3FFF,
            _ => rng.word() as u16,
        };
        let value = match (rng.below(6), present(model, address)) {
            (0, Some(value)) => value,
            _ => rng.byte(),
        };
        Correction::Byte { address, value }
    }
}

/// The byte that the model now has at an address of RAM.
fn present(model: &Replay, address: u16) -> Option<u8> {
    let contents = model.now();
    let (model, last_out) = (contents.machine.model, contents.machine.paging);
    let page = usize::from(page_at(model, last_out, address)?);
    Some(contents.memory[page * PAGE + usize::from(address) % PAGE])
}
