//! The parts of the benchmark of SCS files: a machine with its file, and the contenders that share its buffers.

use crate::ffi_snapshot as ffi;
use bench::timing::Contender;
use reference::machine::{header, Machine, Model};
use reference::memory::{images, PAGE};
use reference::scs;
use std::cell::RefCell;
use std::hint::black_box;

/// Where the memory begins in a file.
const MEMORY_AT: usize = scs::SCS_START + scs::SCS_BLOCK_HEAD;

/// A machine and its file, and what all contenders read into and write to: an area, and an output of the file's length.
pub struct ScsWork {
    header: Vec<u8>,
    file: Vec<u8>,
    /// The pages that lie one after the other in file and area: the first of them, and how many.
    spans: &'static [(usize, usize)],
    /// The pages that the machine does not own.
    cleared: &'static [usize],
    area: RefCell<Vec<u8>>,
    machine: RefCell<Vec<u8>>,
    out: RefCell<Vec<u8>>,
}

impl ScsWork {
    pub fn new(model: Model) -> ScsWork {
        let machine = Machine::blank_as(model);
        let (_, memory) = images(3).swap_remove(0);
        let file = scs::write(&machine, &memory);
        let (_, area) = scs::read(&file).expect("our own file");
        let (spans, cleared): (&[_], &[_]) = match model {
            Model::K48 => (&[(5, 1), (2, 1), (0, 1)], &[1, 3, 4, 6, 7]),
            Model::K128 => (&[(0, 8)], &[]),
        };
        ScsWork {
            header: header(&machine).to_vec(),
            spans,
            cleared,
            area: RefCell::new(area),
            machine: RefCell::new(header(&machine).to_vec()),
            out: RefCell::new(vec![0; file.len()]),
            file,
        }
    }

    /// The library does the work, or its times mean nothing.
    pub fn check(&self) {
        let memory = self.area.borrow().clone();
        self.area.borrow_mut().fill(0xA5);
        (self.read())();
        assert!(*self.area.borrow() == memory, "the file read differs");
        let kept = scs::read(&self.file).expect("our own file").0;
        assert!(*self.machine.borrow() == header(&kept), "another machine");
        self.out.borrow_mut().fill(0xA5);
        (self.write())();
        assert!(*self.out.borrow() == self.file, "the file written differs");
        self.area.borrow_mut().fill(0xA5);
        (self.copy_in_and_clear())();
        assert!(*self.area.borrow() == memory, "the memory copied differs");
        self.out.borrow_mut()[MEMORY_AT..][..PAGE].fill(0xA5);
        (self.copy_out())();
        assert!(*self.out.borrow() == self.file, "the copy in it differs");
    }

    pub fn read(&self) -> Contender<'_> {
        Box::new(|| {
            let (area, machine) = (
                &mut *self.area.borrow_mut(),
                &mut *self.machine.borrow_mut(),
            );
            let (file, mut offset) = (black_box(&self.file), 0);
            black_box(ffi::scs_read(
                file,
                black_box(area),
                black_box(machine),
                &mut offset,
            ));
        })
    }

    pub fn write(&self) -> Contender<'_> {
        Box::new(|| {
            let (area, out) = (self.area.borrow(), &mut *self.out.borrow_mut());
            let (header, mut length) = (black_box(&self.header), 0);
            black_box(ffi::scs_write(
                header,
                black_box(&area),
                black_box(out),
                &mut length,
            ));
        })
    }

    /// The memory of the file copied into its pages of the area, and nothing else.
    pub fn copy_in(&self) -> Contender<'_> {
        Box::new(|| {
            let area = &mut *self.area.borrow_mut();
            let (area, mut from) = (black_box(area), &black_box(&self.file)[MEMORY_AT..]);
            for (page, count) in self.spans {
                let (part, rest) = from.split_at(count * PAGE);
                area[page * PAGE..][..count * PAGE].copy_from_slice(part);
                from = rest;
            }
        })
    }

    /// The machine's pages of the area copied to their places in the file.
    pub fn copy_out(&self) -> Contender<'_> {
        Box::new(|| {
            let (area, out) = (self.area.borrow(), &mut *self.out.borrow_mut());
            let (area, mut to) = (black_box(&area), &mut black_box(out)[MEMORY_AT..]);
            for (page, count) in self.spans {
                let (part, rest) = to.split_at_mut(count * PAGE);
                part.copy_from_slice(&area[page * PAGE..][..count * PAGE]);
                to = rest;
            }
        })
    }

    /// As `copy_in`, with the pages that the machine does not own set to zero.
    pub fn copy_in_and_clear(&self) -> Contender<'_> {
        let mut copy = self.copy_in();
        Box::new(move || {
            copy();
            let area = &mut *self.area.borrow_mut();
            for page in self.cleared {
                black_box(&mut area[page * PAGE..][..PAGE]).fill(0);
            }
        })
    }
}
