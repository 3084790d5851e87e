//! Maps and unmaps of each of the usual number of buffers in turn, and a map that is refused.

use crate::called::Called;
use crate::rounds::{Row, Side};
use crate::setup::{self, Aligned, Sizes};
use std::hint::black_box;
use tollgutter_tests::recorder::PICTURES;
use tollgutter_tests::session::Change;
use tollgutter_tests::{ffi, model};

const BUFFERS: u32 = 8;
/// How often each buffer is mapped or unmapped in a batch.
const TIMES: u32 = 8;
const SLOT: u32 = 4096;

#[derive(Clone, Copy)]
struct Case {
    name: &'static str,
    change: Change,
    /// How far behind the start of a buffer: a place that is not 0 is refused.
    beside: u32,
}

const CASES: [Case; 3] = [
    Case { name: "map", change: Change::Map, beside: 0 },
    Case { name: "unmap", change: Change::Unmap, beside: 0 },
    Case { name: "map refused, beside a slot", change: Change::Map, beside: 64 },
];

/// A device, and the offsets of a batch of calls.
struct Batch<R> {
    case: Case,
    device: Aligned<R>,
    offsets: Vec<u32>,
}

impl<R: Called> Batch<R> {
    fn new(case: Case, mut device: R) -> Batch<R> {
        setup::small(&mut device, Sizes::Usual, PICTURES, BUFFERS);
        let offsets = (0..TIMES * BUFFERS).map(|call| call % BUFFERS * SLOT + case.beside).collect();
        Batch { case, device: Aligned(device), offsets }
    }

    /// The numbers that a batch gives.
    fn numbers(&mut self) -> Vec<u32> {
        self.ready();
        let (device, change) = (&mut self.device.0, self.case.change);
        let number = |offset: &u32| match change {
            Change::Map => device.map(PICTURES, *offset, SLOT),
            Change::Unmap => device.unmap(PICTURES, *offset, SLOT),
        };
        self.offsets.iter().map(number).collect()
    }
}

impl<R: Called> Side for Batch<R> {
    /// No maps, or as many as the batch takes off.
    fn ready(&mut self) {
        let device = &mut self.device.0;
        for offset in (0..BUFFERS).map(|index| index * SLOT) {
            while device.unmap(PICTURES, offset, SLOT) == 0 {}
            if self.case.change == Change::Unmap {
                (0..TIMES).for_each(|_| assert_eq!(device.map(PICTURES, offset, SLOT), 0));
            }
        }
    }

    fn batch(&mut self) {
        let (device, kind, length) = (&mut self.device.0, black_box(PICTURES), black_box(SLOT));
        match self.case.change {
            Change::Map => self.offsets.iter().for_each(|at| _ = black_box(device.call_map(kind, *at, length))),
            Change::Unmap => self.offsets.iter().for_each(|at| _ = black_box(device.call_unmap(kind, *at, length))),
        }
    }

    fn calls(&self) -> usize {
        self.offsets.len()
    }
}

pub fn all() -> Vec<Row> {
    let rows = CASES.map(|case| {
        let mut library = Batch::new(case, ffi::Device::zeroed());
        let mut rust = Batch::new(case, model::Device::closed());
        let number = if case.beside == 0 { 0 } else { 22 };
        assert_eq!(library.numbers(), rust.numbers(), "{}", case.name);
        assert!(rust.numbers().iter().all(|given| *given == number), "{}", case.name);
        Row { name: case.name.into(), library: Box::new(library), other: Box::new(rust) }
    });
    rows.into()
}
