//! The examples of the rules, and the model against the rules.

use super::*;
use crate::machine::{from_header, header, own_header, Machine, Model, Version, HEADER, PAIRS};
use crate::memory::{Rng, MEMORY, PAGE};

fn machine(model: Model, last_out: u8) -> Machine {
    Machine {
        paging: last_out,
        ..Machine::blank_as(model)
    }
}

/// A zero area and a started log of this length.
fn buffers(machine: &Machine, log_length: usize) -> Buffers {
    let mut buffers = Buffers {
        header: header(machine).to_vec(),
        area: vec![0; MEMORY],
        log: vec![0xA5; log_length],
        standing: 7,
        total: 9,
    };
    let Buffers {
        log,
        standing,
        total,
        ..
    } = &mut buffers;
    assert_eq!(start(log, standing, total), 0);
    assert_eq!(buffers.log, vec![0; log_length]);
    assert_eq!((buffers.standing, buffers.total), (0, 0));
    buffers
}

fn byte(address: u16, value: u8) -> Call {
    Call::Correct(Correction::Byte { address, value })
}

fn pair(pair: u8, value: u16) -> Call {
    Call::Correct(Correction::Pair { pair, value })
}

fn out(value: u8) -> Call {
    Call::Correct(Correction::Out { value })
}

#[test]
fn logs_of_10_and_11_bytes() {
    let machine = machine(Model::K48, 0);
    for (length, number) in [(0, 26), (10, 26), (11, 0), (21, 0)] {
        for good in [byte(0x4000, 1), pair(11, 0x1234)] {
            let mut model = Replay::new(machine.clone(), vec![0; MEMORY], length);
            assert_eq!(call(&mut buffers(&machine, length), good), number);
            assert_eq!(model.call(good), number);
            assert_eq!(model.call(good), 26);
        }
    }
    let mut lent = buffers(&machine, 11);
    assert_eq!(call(&mut lent, byte(0x4000, 1)), 0);
    assert_eq!(call(&mut lent, byte(0x4000, 1)), 26);
    assert_eq!(call(&mut lent, Call::Undo), 0);
    assert_eq!(call(&mut lent, byte(0x4000, 2)), 0);
    let most = [(45_055, 4_095), (45_056, 4_096), (60_000, 4_096)];
    assert!(most.iter().all(|(length, most)| capacity(*length) == *most));
}

#[test]
fn undo_finds_the_page_of_its_step() {
    let machine = machine(Model::K128, 5);
    let mut lent = buffers(&machine, 22);
    let mut model = Replay::new(machine, vec![0; MEMORY], 22);
    let mut both = |asked| {
        let answer = call(&mut lent, asked);
        assert_eq!(model.call(asked), answer);
        let contents = model.now();
        assert!(contents.memory == lent.area);
        assert_eq!(header(&contents.machine), lent.header[..]);
        assert_eq!(answer, 0);
        lent.clone()
    };
    let lent = both(byte(0xC010, 0x7E));
    let step = [1, 8, 0, 5, 0x10, 0, 0, 0, 0x7E, 0, 0];
    assert_eq!(lent.log[..11], step);
    assert_eq!(Step::from_bytes(&step), Step::byte(5, 0x10, 0, 0x7E));
    let lent = both(out(0));
    assert_eq!(lent.log[11..], [3, 8, 0, 0, 0, 0, 5, 0, 0, 0, 0]);
    assert_eq!((lent.header[35], lent.area[5 * PAGE + 0x10]), (0, 0x7E));
    both(Call::Undo);
    let lent = both(Call::Undo);
    assert!(lent.area == vec![0; MEMORY]);
    assert_eq!((lent.standing, lent.total, lent.header[35]), (0, 2, 5));
}

#[test]
fn the_lock_holds_for_corrections_only() {
    let mut lent = buffers(&machine(Model::K128, 1), 110);
    for (asked, number) in [
        (out(0x22), 0),
        (out(0x03), 25),
        (byte(0xC000, 9), 0),
        (Call::Undo, 0),
        (Call::Undo, 0),
        (Call::Redo, 0),
        (Call::Redo, 0),
        (Call::Redo, 27),
    ] {
        assert_eq!(call(&mut lent, asked), number, "{asked:?}");
    }
    assert_eq!((lent.header[35], lent.area[2 * PAGE]), (0x22, 9));
    let mut lent = buffers(&machine(Model::K48, 0), 110);
    assert_eq!(call(&mut lent, out(0)), 24);
}

#[test]
fn a_is_the_high_byte_of_af() {
    let mut model = Replay::new(machine(Model::K48, 0), vec![0; MEMORY], 45_056);
    let mut lent = buffers(&machine(Model::K48, 0), 45_056);
    for number in 0..PAIRS {
        let asked = pair(number, 0x1200 + u16::from(number));
        assert_eq!((model.call(asked), call(&mut lent, asked)), (0, 0));
    }
    let machine = &model.now().machine;
    assert_eq!((machine.a, machine.f), (0x12, 0x00));
    assert_eq!((machine.alt_a, machine.alt_f), (0x12, 0x04));
    assert_eq!((machine.ix, machine.iy), (0x1208, 0x1209));
    assert_eq!((machine.sp, machine.pc), (0x120A, 0x120B));
    assert_eq!(own_header(&lent.header).as_ref(), Some(machine));
    assert_eq!(lent.log[..11], [2, 8, 0, 0, 0, 0, 0, 0, 0, 0x12, 0]);
    assert_eq!(call(&mut lent, pair(12, 0)), 32);
}

#[test]
fn orders_of_refusal() {
    let good = buffers(&machine(Model::K48, 0), 11);
    let broken = |numbers: &[u32]| {
        let mut lent = good.clone();
        for number in numbers {
            match number {
                20 => lent.header[60] = 1,
                21 => _ = lent.area.pop(),
                29 => lent.total = 2,
                _ => (lent.standing, lent.total) = (1, 1),
            }
        }
        lent
    };
    for (faults, asked, number) in [
        (&[20, 21, 29][..], byte(0, 0), 20),
        (&[21, 29], byte(0, 0), 21),
        (&[29], byte(0, 0), 29),
        (&[26], byte(0x3FFF, 0), 23),
        (&[26], pair(12, 0), 32),
        (&[26], out(0), 24),
        (&[26], pair(11, 0), 26),
        (&[26], Call::Redo, 27),
        (&[26], Call::Undo, 28),
        (&[], Call::Undo, 27),
        (&[29], Call::Undo, 29),
    ] {
        let mut lent = broken(faults);
        assert_eq!(call(&mut lent, asked), number, "{faults:?} {asked:?}");
        assert!(lent == broken(faults));
    }
}

#[test]
fn views() {
    let headers = [Model::K48, Model::K128].map(|model| header(&machine(model, 0)));
    let at = |in_rom, number: u64| View {
        in_rom,
        start: number * 16_384,
        length: 16_384,
    };
    let seen = |which: usize, page| view(&headers[which], (which + 1) * PAGE, MEMORY, page);
    assert_eq!(seen(0, 5), (0, at(0, 5)));
    assert_eq!(seen(0, 7), (30, View::default()));
    assert_eq!(seen(0, 8), (0, at(1, 0)));
    assert_eq!(seen(0, 9).0, 30);
    assert_eq!(seen(1, 7), (0, at(0, 7)));
    assert_eq!(seen(1, 9), (0, at(1, 1)));
    assert_eq!(seen(1, 10).0, 30);
    assert_eq!(view(&headers[0], 2 * PAGE, MEMORY, 255).0, 31);
    assert_eq!(view(&headers[0], 0, MEMORY - 1, 255).0, 21);
    assert_eq!(view(&headers[0][..85], 0, 0, 255).0, 20);
}

/// A valid machine, random in everything.
fn any_machine(rng: &mut Rng, mode: u8) -> Machine {
    let mut bytes = rng.bytes(HEADER);
    bytes[6..8].fill(0);
    bytes[34] = mode;
    bytes[29] &= 0xFE;
    bytes[56] %= 0x44;
    bytes[57] &= 3;
    bytes[60] = 0;
    from_header(Version::V3, &bytes).expect("a good header")
}

fn any_call(rng: &mut Rng) -> Call {
    let value = rng.byte();
    match rng.below(12) {
        0..=3 => byte(rng.pick(&[0xC000, 0xC001, 0xFFFF, 0x8000, 0x3FFF]), value),
        4 => byte(rng.word() as u16, value),
        5 => out(value & if rng.once_in(9) { 0xFF } else { 0xDF }),
        6 => pair(rng.below(13) as u8, rng.word() as u16),
        7..=9 => Call::Undo,
        _ => Call::Redo,
    }
}

#[test]
fn the_model_is_made_afresh_and_agrees_with_the_rules() {
    let rng = &mut Rng::new(7);
    for (mode, length) in [(0, 11), (3, 45_056), (4, 110), (6, 45_056)] {
        let machine = any_machine(rng, mode);
        let mut lent = buffers(&machine, length);
        lent.area = rng.bytes(MEMORY);
        let mut model = Replay::new(machine, lent.area.clone(), length);
        for _ in 0..600 {
            let asked = any_call(rng);
            assert_eq!(model.call(asked), call(&mut lent, asked), "{asked:?}");
            assert_eq!(
                (model.standing(), model.total()),
                (lent.standing, lent.total)
            );
            assert!(model.is_afresh() && model.now().memory == lent.area);
            assert_eq!(header(&model.now().machine), lent.header[..]);
        }
    }
}
