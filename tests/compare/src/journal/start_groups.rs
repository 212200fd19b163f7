//! Groups that start a log, and the examples of the rules.

use compare::calls::journal::JournalChecker;
use compare::report::{Group, Outcome};
use reference::journal::{Call, Correction};
use reference::machine::{header, Machine, Model};
use reference::memory::{MEMORY, PAGE};

/// Dirty logs of many lengths: all zero, and both numbers 0.
pub fn lengths(group: &mut Group, check: &mut JournalChecker) -> Outcome {
    let long = [
        4_096, 45_045, 45_055, 45_056, 45_057, 45_067, 60_000, 131_072, 1_000_000,
    ];
    for length in (0..=1_200).chain(long) {
        for _ in 0..8 {
            check.start(group, length)?;
        }
    }
    Ok(())
}

fn byte(address: u16, value: u8) -> Call {
    Call::Correct(Correction::Byte { address, value })
}

fn lend(check: &mut JournalChecker, model: Model, last_out: u8, log_length: usize) {
    let machine = Machine {
        paging: last_out,
        ..Machine::blank_as(model)
    };
    check.lend_area(vec![0; MEMORY]);
    check.lent.header = header(&machine).to_vec();
    check.lent.log = vec![0; log_length];
    (check.lent.standing, check.lent.total) = (0, 0);
}

/// Logs of 10 and 11 bytes, and an undo after another page was paged in.
pub fn examples(group: &mut Group, check: &mut JournalChecker) -> Outcome {
    for model in [Model::K48, Model::K128] {
        lend(check, model, 0, 10);
        check.expect(group, byte(0x4000, 1), 26)?;
        lend(check, model, 0, 11);
        check.expect(group, byte(0x4000, 1), 0)?;
        check.expect(group, byte(0x4000, 1), 26)?;
    }
    lend(check, Model::K128, 5, 22);
    check.expect(group, byte(0xC010, 0x7E), 0)?;
    if check.library.log.part()[..11] != [1, 8, 0, 5, 0x10, 0, 0, 0, 0x7E, 0, 0] {
        return Err("the step of the example".into());
    }
    let out = Call::Correct(Correction::Out { value: 0 });
    check.expect(group, out, 0)?;
    check.expect(group, Call::Undo, 0)?;
    check.expect(group, Call::Undo, 0)?;
    let area = check.library.area.part();
    if area[..PAGE] != [0; PAGE] || area[5 * PAGE + 0x10] != 0 {
        return Err("page 5 or page 0 of the example".into());
    }
    Ok(())
}
