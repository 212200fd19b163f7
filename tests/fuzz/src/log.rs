//! Lists of calls on a log. Between them the log and its numbers are changed from outside.

use super::input::{Input, Picked};
use super::memory::seeded;
use super::reached::{mark, row};
use super::target::Target;
use compare::calls::seen::CountedFunction;
use compare::calls::{answer, note, outcome, view};
use compare::machines;
use compare::report::Outcome;
use reference::journal::{capacity, Call, Correction, Replay, STEP};
use reference::machine::{header, own_header, Model};
use reference::memory::{Rng, MEMORY};

/// The most acts of an input.
const MOST_ACTS: usize = 300;

/// What four bytes stand for.
#[derive(Debug)]
enum Act {
    Start,
    Call(Call),
    View { page: u8, rom: u8 },
    SetByte { at: usize, value: u8 },
    SetNumbers { standing: u8, total: u8 },
}

/// A machine, an area and a started log, then four bytes for each act.
pub fn run(target: &mut Target, picked: &Picked, input: &mut Input) -> Outcome {
    let (last_out, seed, log_pick) = (input.byte(), input.byte(), input.byte());
    let mut header = match picked.choice {
        0 => valid_header(Model::K48, seed, 0),
        1 | 2 => valid_header(Model::K128, seed, last_out),
        _ => input.header(picked.header),
    };
    header.resize(picked.header, 0);
    target.journal.lent.header = header;
    target.journal.lend_area(seeded(seed, picked.area));
    let mut list = List {
        target,
        picked,
        log_pick,
        log_length: log_length(log_pick),
        model: None,
    };
    list.start()?;
    let acts = input.rest().chunks_exact(4).take(MOST_ACTS);
    for (number, bytes) in acts.enumerate() {
        let act = Act::of([bytes[0], bytes[1], bytes[2], bytes[3]]);
        let tell = |what| format!("act {number}, {act:02X?}: {what}");
        list.act(&act).map_err(tell)?;
    }
    match list.model {
        Some(model) if !model.is_afresh() => Err("the model itself".into()),
        _ => Ok(()),
    }
}

fn valid_header(model: Model, seed: u8, last_out: u8) -> Vec<u8> {
    let mut machine = machines::machine(&mut Rng::new(seed.into()), model);
    machine.paging = last_out;
    header(&machine).to_vec()
}

/// Most often a short log, else one around the most steps.
fn log_length(pick: u8) -> usize {
    match pick {
        255 => 60_000,
        252..=254 => 4_096 * STEP + usize::from(pick) - 253,
        _ => pick.into(),
    }
}

/// A number near 0, near the capacity, or wide.
fn number(pick: u8, room: u64) -> u64 {
    match pick {
        0..=99 => pick.into(),
        100..=199 => (room + u64::from(pick)).saturating_sub(150),
        _ => u64::MAX >> (255 - pick),
    }
}

impl Act {
    fn of([code, first, second, third]: [u8; 4]) -> Act {
        let word = u16::from_le_bytes([first, second]);
        let value = u16::from_le_bytes([second, third]);
        match code % 9 {
            0 => Act::Call(Call::Undo),
            1 => Act::Call(Call::Correct(Correction::Byte {
                address: word,
                value: third,
            })),
            2 => Act::Call(Call::Correct(Correction::Pair { pair: first, value })),
            3 => Act::Call(Call::Correct(Correction::Out { value: first })),
            4 => Act::Call(Call::Redo),
            5 => Act::View {
                page: first,
                rom: second,
            },
            6 => Act::SetByte {
                at: word.into(),
                value: third,
            },
            7 => Act::SetNumbers {
                standing: first,
                total: second,
            },
            _ => Act::Start,
        }
    }
}

/// Cases of a call that the rules treat alike.
fn case_of(call: Call) -> u8 {
    match call {
        Call::Correct(Correction::Byte { address, .. }) => (address / 0x4000) as u8,
        Call::Correct(Correction::Pair { pair, .. }) => pair,
        Call::Correct(Correction::Out { value }) => value,
        Call::Undo | Call::Redo => 0,
    }
}

/// A list under way. The model knows it from a start until the log is changed from outside.
struct List<'a> {
    target: &'a mut Target,
    picked: &'a Picked,
    log_pick: u8,
    log_length: usize,
    model: Option<Replay>,
}

impl List<'_> {
    fn act(&mut self, act: &Act) -> Outcome {
        let log_length = self.log_length;
        let lent = &mut self.target.journal.lent;
        match *act {
            Act::Start => return self.start(),
            Act::Call(call) => return self.call(call),
            Act::View { page, rom } => return self.view(page, rom),
            Act::SetByte { at, value } if log_length > 0 => lent.log[at % log_length] = value,
            Act::SetByte { .. } => {}
            Act::SetNumbers { standing, total } => {
                let room = capacity(log_length);
                (lent.standing, lent.total) = (number(standing, room), number(total, room));
            }
        }
        self.model = None;
        Ok(())
    }

    fn start(&mut self) -> Outcome {
        let Target { journal, calls, .. } = &mut *self.target;
        journal.start(calls, self.log_length)?;
        let area = &journal.lent.area;
        let machine = own_header(&journal.lent.header).filter(|_| area.len() == MEMORY);
        self.model = machine.map(|machine| Replay::new(machine, area.clone(), self.log_length));
        Ok(())
    }

    fn call(&mut self, call: Call) -> Outcome {
        let Target {
            journal,
            calls,
            modelled,
            ..
        } = &mut *self.target;
        let given = journal.call(calls, call)?;
        let case = match given {
            // both hang on the length of the log
            26 | 29 => self.log_pick.saturating_sub(248),
            _ => self.picked.case(given, case_of(call)),
        };
        mark(row(CountedFunction::of(call)), given, case);
        let Some(model) = &mut self.model else {
            return Ok(());
        };
        *modelled += 1;
        let mut wrong = Vec::new();
        answer(&mut wrong, given, model.call(call));
        journal.library.against(model, &mut wrong);
        let area = journal.library.area.difference(&model.now().memory);
        note(&mut wrong, "area", area);
        outcome(wrong).map_err(|what| format!("by the model: {what}"))
    }

    fn view(&mut self, page: u8, rom: u8) -> Outcome {
        let Target { journal, roms, .. } = &mut *self.target;
        let lent = &journal.lent;
        let library = &mut journal.library;
        library.lend(&lent.header, &lent.log, lent.standing, lent.total);
        let rom = &roms[usize::from(rom) % roms.len()];
        let number = view::call(&mut journal.seen, &library.header, rom, &library.area, page)?;
        mark(
            row(CountedFunction::View),
            number,
            self.picked.case(number, page),
        );
        outcome(library.differences(lent))
    }
}
