//! Lists of calls against the model, which never sees a log byte.

use super::lists::Lister;
use compare::calls::journal::JournalChecker;
use compare::calls::library::Library;
use compare::calls::seen::CountedFunction;
use compare::calls::{answer, note, outcome};
use compare::machines::machine;
use compare::report::{hex, Group, Outcome};
use reference::journal::{capacity, Call, Correction, Replay, Step, STEP};
use reference::machine::{header, page_at, Model, PAIRS};
use reference::memory::{Rng, MEMORY, PAGE};

/// The most calls of a list.
const MOST_CALLS: usize = 5_000;

/// Whole buffers are compared once in this many calls.
const WHOLE: usize = 64;

/// The model is made afresh once in this many calls.
const AFRESH: usize = 1_000;

/// One list: the library, the model, and what the log must be.
struct ListRun<'a> {
    library: &'a mut Library,
    model: Replay,
    log: Vec<u8>,
}

/// Lists on both models with a log of this length, until there are enough calls.
pub fn with_log(
    group: &mut Group,
    check: &mut JournalChecker,
    rng: &mut Rng,
    log_length: usize,
    calls: u64,
) -> Outcome {
    let (mut list, mut deepest) = (0, 0);
    while group.inputs < calls {
        let model = [Model::K48, Model::K128, Model::K128][list % 3];
        let tell = |what| format!("list {list}, {model:?}, {what}");
        let depth = one_list(group, check, rng, log_length, model).map_err(tell)?;
        deepest = deepest.max(depth);
        list += 1;
    }
    match deepest == capacity(log_length) {
        true => Ok(()),
        false => Err(format!("never more than {deepest} corrections stood")),
    }
}

/// One list, and the most corrections that stood in it.
fn one_list(
    group: &mut Group,
    check: &mut JournalChecker,
    rng: &mut Rng,
    log_length: usize,
    model: Model,
) -> Result<u64, String> {
    let room = capacity(log_length);
    let first = rng
        .pick(&[0, 10, room / 2, room - room / 8, room])
        .min(room);
    let length = match first > 1_000 || rng.once_in(3) {
        true => MOST_CALLS,
        false => rng.below(MOST_CALLS),
    };
    let longest = rng.pick(&[3, 30, 300, 3_000]);
    let JournalChecker { library, seen, .. } = check;
    let mut run = ListRun::start(library, rng, log_length, model)?;
    seen.add(CountedFunction::Start, 0);
    let mut lister = Lister::new(rng, first, longest);
    let mut depth = 0;
    for number in 0..length {
        let call = lister.next(&run.model);
        let given = run.call(number, call);
        let given = given.map_err(|what| format!("call {number}, {call:02X?}: {what}"))?;
        seen.add(CountedFunction::of(call), given);
        group.inputs += 1;
        depth = depth.max(run.model.standing());
    }
    run.end().map_err(|what| format!("at the end: {what}"))?;
    Ok(depth)
}

impl ListRun<'_> {
    /// A random machine and memory with a started log.
    fn start<'a>(
        library: &'a mut Library,
        rng: &mut Rng,
        log_length: usize,
        model: Model,
    ) -> Result<ListRun<'a>, String> {
        let (machine, memory) = (machine(rng, model), rng.bytes(MEMORY));
        library.lend(&header(&machine), &[], 0, 0);
        library.lend_area(&memory);
        let given = library.start(log_length);
        let run = ListRun {
            library,
            model: Replay::new(machine, memory, log_length),
            log: vec![0; log_length],
        };
        let mut wrong = Vec::new();
        answer(&mut wrong, given, 0);
        run.state(&mut wrong);
        run.whole(&mut wrong);
        outcome(wrong).map(|()| run)
    }

    /// One call of both sides; the library's answer.
    fn call(&mut self, number: usize, call: Call) -> Result<u32, String> {
        let place = self.offset(call);
        let step = self.step(call);
        let expected = self.model.call(call);
        if let (0, Some(step)) = (expected, step) {
            let at = self.model.applied().len() - 1;
            self.log[at * STEP..][..STEP].copy_from_slice(&step.bytes());
        }
        let given = self.library.call(call);
        let mut wrong = Vec::new();
        answer(&mut wrong, given, expected);
        self.state(&mut wrong);
        self.near(&mut wrong, place.or(self.offset(Call::Undo)));
        if number.is_multiple_of(WHOLE) {
            self.whole(&mut wrong);
        }
        if number.is_multiple_of(AFRESH) && !self.model.is_afresh() {
            wrong.push("the model itself".into());
        }
        outcome(wrong).map(|()| given)
    }

    /// The offset in a page that a correction is about, or the last applied one for an undo.
    fn offset(&self, call: Call) -> Option<usize> {
        let about = match call {
            Call::Correct(correction) => Some(correction),
            Call::Undo => self.model.applied().last().copied(),
            Call::Redo => None,
        };
        match about {
            Some(Correction::Byte { address, .. }) => Some(usize::from(address) % PAGE),
            _ => None,
        }
    }

    /// The step that a correction writes if it is accepted.
    fn step(&self, call: Call) -> Option<Step> {
        let Call::Correct(correction) = call else {
            return None;
        };
        let contents = self.model.now();
        let machine = &contents.machine;
        match correction {
            Correction::Byte { address, value } => {
                let page = page_at(machine.model, machine.paging, address)?;
                let offset = address % PAGE as u16;
                let place = usize::from(page) * PAGE + usize::from(offset);
                Some(Step::byte(page, offset, contents.memory[place], value))
            }
            Correction::Pair { pair, value } => {
                let old = (pair < PAIRS).then(|| machine.pair(pair))?;
                Some(Step::pair(pair, old, value))
            }
            Correction::Out { value } => Some(Step::out(machine.paging, value)),
        }
    }

    /// Header, both numbers, and every guard.
    fn state(&self, wrong: &mut Vec<String>) {
        self.library.against(&self.model, wrong);
        note(wrong, "area", self.library.area.guards());
        note(wrong, "log", self.library.log.guards());
    }

    /// The byte at an offset in each page, and the steps around the last applied one.
    fn near(&self, wrong: &mut Vec<String>, offset: Option<usize>) {
        let (area, memory) = (self.library.area.part(), &self.model.now().memory);
        for place in offset.iter().flat_map(|at| (*at..MEMORY).step_by(PAGE)) {
            let (is, should) = (area[place], memory[place]);
            if is != should {
                let (page, offset) = (place / PAGE, place % PAGE);
                let place = format!("page {page}, offset {offset:04X}");
                wrong.push(format!("{place} is {is:02X}, should be {should:02X}"));
            }
        }
        let at = self.model.applied().len() * STEP;
        let from = at.saturating_sub(2 * STEP).min(self.log.len());
        let end = (at + 2 * STEP).min(self.log.len());
        let (is, should) = (&self.library.log.part()[from..end], &self.log[from..end]);
        if is != should {
            wrong.push(format!("log from {from}: {}, not {}", hex(is), hex(should)));
        }
    }

    /// The whole area and the whole log.
    fn whole(&self, wrong: &mut Vec<String>) {
        let memory = &self.model.now().memory;
        note(wrong, "area", self.library.area.difference(memory));
        note(wrong, "log", self.library.log.difference(&self.log));
    }

    fn end(&self) -> Outcome {
        let mut wrong = Vec::new();
        self.whole(&mut wrong);
        if !self.model.is_afresh() {
            wrong.push("the model itself".into());
        }
        outcome(wrong)
    }
}
