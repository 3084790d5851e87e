//! Arrivals: what deciding about one takes, and what storing its bytes takes.

use crate::called::Called;
use crate::rounds::{Row, Side};
use crate::setup::{self, Aligned};
use std::hint::black_box;
use tollgutter_tests::model::format::YUYV;
use tollgutter_tests::model::words::{DQBUF, QBUF, REQBUFS, STREAMOFF, STREAMON, S_FMT};
use tollgutter_tests::recorder::{Recorder, CAPTIONS, DAMAGED, DROPPED, PICTURES, STORED};
use tollgutter_tests::{ffi, model};

const BUFFERS: u32 = 8;

/// An arrival of the smallest picture, or of caption lines, and what it is answered.
#[derive(Clone, Copy)]
struct Case {
    name: &'static str,
    kind: u32,
    answer: u32,
    /// How many bytes of the frame arrive.
    length: usize,
    /// How many buffers wait when a batch begins.
    waiting: u32,
    /// Devices in a batch, and arrivals on each.
    devices: usize,
    each: usize,
}

const PICTURE: Case = Case {
    name: "stored, a frame of 4 bytes",
    kind: PICTURES,
    answer: STORED,
    length: 4,
    waiting: BUFFERS,
    devices: 4,
    each: 8,
};
const LINES: Case = Case { name: "captions stored, 33 records", kind: CAPTIONS, length: 33 * 64, ..PICTURE };

const CASES: [Case; 7] = [
    PICTURE,
    Case { name: "damaged, 3 bytes of 4", answer: DAMAGED, length: 3, devices: 1, each: 64, ..PICTURE },
    Case { name: "dropped, no buffer waits", answer: DROPPED, waiting: 0, devices: 1, each: 64, ..PICTURE },
    LINES,
    Case { name: "captions stored, 1 record", length: 64, ..LINES },
    Case { name: "captions stored, no record", length: 0, ..LINES },
    Case { name: "captions dropped, 33 records", answer: DROPPED, waiting: 0, devices: 1, each: 64, ..LINES },
];

struct Decision<R> {
    case: Case,
    devices: Vec<Aligned<R>>,
    memory: Vec<u8>,
    frame: Vec<u8>,
}

impl<R: Called> Decision<R> {
    fn new(case: Case, make: impl Fn() -> R) -> Decision<R> {
        let mut devices: Vec<Aligned<R>> = (0..case.devices).map(|_| Aligned(make())).collect();
        for Aligned(device) in &mut devices {
            setup::smallest(device, BUFFERS);
        }
        let mut frame = if case.kind == CAPTIONS { setup::all_lines() } else { setup::SMALLEST_FRAME.to_vec() };
        frame.truncate(case.length);
        let mut decision = Decision { case, devices, memory: vec![0; setup::MEMORY], frame };
        decision.check();
        decision
    }

    /// Every arrival of a batch has to have the answer that the row names.
    fn check(&mut self) {
        self.ready();
        for Aligned(device) in &mut self.devices {
            for _ in 0..self.case.each {
                let arrived = device.arrival(self.case.kind, &mut self.memory, &self.frame, 1, 2);
                assert_eq!(arrived.answer, self.case.answer, "{}", self.case.name);
            }
        }
    }
}

impl<R: Called> Side for Decision<R> {
    fn ready(&mut self) {
        let Case { kind, waiting, .. } = self.case;
        for Aligned(device) in &mut self.devices {
            setup::done(device, STREAMOFF, &[(0, kind)]);
            setup::queue(device, kind, waiting);
            setup::done(device, STREAMON, &[(0, kind)]);
        }
    }

    fn batch(&mut self) {
        let memory = black_box(&mut self.memory);
        let frame = black_box(&self.frame);
        let (kind, seconds, microseconds) = black_box((self.case.kind, 1, 2));
        for Aligned(device) in &mut self.devices {
            for _ in 0..self.case.each {
                // By reference: a copy of the answer would be read before its parts are written out, and wait for them.
                black_box(&device.call_arrival(kind, memory, frame, seconds, microseconds));
            }
        }
    }

    fn calls(&self) -> usize {
        self.case.devices * self.case.each
    }
}

/// What deciding takes.
pub fn decisions() -> Vec<Row> {
    let row = |case: Case| Row {
        name: case.name.into(),
        library: Box::new(Decision::new(case, ffi::Device::zeroed)),
        other: Box::new(Decision::new(case, model::Device::closed)),
    };
    CASES.map(row).into()
}

const FRAME_MEMORY: usize = 1 << 20;

/// Bytes of a frame, width, height.
const FRAMES: [(usize, u32, u32); 2] = [(143_360, 304, 224), (460_800, 640, 360)];

/// A device that streams, with its memory and one frame; every batch hands the buffer in again.
struct Frame {
    device: Aligned<ffi::Device>,
    memory: Vec<u8>,
    frame: Vec<u8>,
    outgoing: bool,
}

impl Side for Frame {
    fn ready(&mut self) {
        if self.outgoing {
            setup::done(&mut self.device.0, DQBUF, &[(4, 1), (48, 1)]);
        }
        setup::done(&mut self.device.0, QBUF, &[(4, 1), (48, 1)]);
    }

    fn batch(&mut self) {
        let (memory, frame) = (black_box(&mut self.memory), black_box(&self.frame));
        let told = self.device.0.call_arrival(PICTURES, memory, frame, 1, 2);
        assert_eq!(told.answer, STORED);
        self.outgoing = true;
    }

    fn calls(&self) -> usize {
        1
    }
}

/// The same bytes by the machine's own copy.
struct Copy {
    memory: Vec<u8>,
    frame: Vec<u8>,
}

impl Side for Copy {
    fn ready(&mut self) {}

    fn batch(&mut self) {
        let memory = black_box(&mut self.memory);
        memory[..self.frame.len()].copy_from_slice(black_box(&self.frame));
    }

    fn calls(&self) -> usize {
        1
    }
}

fn frame((bytes, width, height): (usize, u32, u32)) -> Row {
    let mut device = ffi::Device::zeroed();
    assert_eq!(device.open(&setup::bench_sheet(), [FRAME_MEMORY as u64, 0]), 0);
    setup::done(&mut device, S_FMT, &[(0, 1), (4, width), (8, height), (12, YUYV)]);
    setup::done(&mut device, REQBUFS, &[(0, 1), (4, 1), (8, 1)]);
    setup::done(&mut device, STREAMON, &[(0, 1)]);
    let frame: Vec<u8> = (0..bytes).map(|i| (i * 7) as u8).collect();
    let memory = vec![0; FRAME_MEMORY];
    let copy = Copy { memory: memory.clone(), frame: frame.clone() };
    let library = Frame { device: Aligned(device), memory, frame, outgoing: false };
    Row { name: format!("{bytes} bytes"), library: Box::new(library), other: Box::new(copy) }
}

/// What storing takes.
pub fn frames() -> Vec<Row> {
    FRAMES.map(frame).into()
}
