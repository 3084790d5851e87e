//! The eighteen requests and an unknown word, each accepted (the unknown one refused); four of them on the caption stream
//! too.

use crate::called::Called;
use crate::rounds::{Row, Side};
use crate::setup::{self, Aligned, Sizes};
use std::hint::black_box;
use tollgutter_tests::model::format::YU12;
use tollgutter_tests::model::words::*;
use tollgutter_tests::recorder::{CAPTIONS, PICTURES};
use tollgutter_tests::{ffi, model};

const CONTRAST: u32 = 0x0098_0901;
const UNKNOWN: u32 = 0xC008_56FF;

/// How many buffers the first table grants, and those of the second.
const USUAL: u32 = 8;
const COUNTS: [u32; 3] = [4, 8, 32];

/// Where the buffers of a device are before the calls of a batch.
#[derive(Clone, Copy)]
enum Before {
    /// All are with the client, and nothing streams.
    Dequeued,
    /// All wait for a frame, the first buffer first, and nothing streams.
    Queued,
    /// A run is on, and all hold a frame, the first buffer first.
    Filled,
}

/// How many calls a device gets in one batch.
#[derive(Clone, Copy)]
enum Calls {
    /// Many: the call leaves the device as it was.
    Many,
    /// One for each of its buffers.
    Buffers,
    /// One.
    Once,
}

#[derive(Clone, Copy)]
struct Case {
    name: &'static str,
    word: u32,
    fields: &'static [(usize, u32)],
    sizes: Sizes,
    /// The stream that has the buffers.
    kind: u32,
    buffers: u32,
    before: Before,
    calls: Calls,
}

impl Case {
    /// Devices in a batch, and calls on each. All that they touch stays in the first cache.
    fn shape(&self) -> (usize, usize) {
        match self.calls {
            Calls::Many => (1, 64),
            Calls::Buffers => (32 / self.buffers as usize, self.buffers as usize),
            Calls::Once => (16, 1),
        }
    }

    /// The argument of a device's call of this number.
    fn argument(&self, number: usize) -> Vec<u8> {
        let mut argument = vec![0; size(self.word)];
        let mut put = |at: usize, word: u32| argument[at..at + 4].copy_from_slice(&word.to_le_bytes());
        for &(at, word) in self.fields {
            put(at, word);
        }
        match self.word {
            QBUF => put(0, number as u32),
            QUERYBUF => put(0, self.buffers - 1),
            REQBUFS => put(0, self.buffers),
            _ => {}
        }
        argument
    }

    fn expected(&self) -> u32 {
        if self.word == UNKNOWN {
            25
        } else {
            0
        }
    }

    /// The same with another number of buffers.
    fn with(self, buffers: u32) -> Case {
        Case { buffers, ..self }
    }

    fn row(self, name: String) -> Row {
        let mut library = Batch::new(self, ffi::Device::zeroed);
        let mut rust = Batch::new(self, model::Device::closed);
        assert_eq!(library.answers(), rust.answers(), "{name}");
        Row { name, library: Box::new(library), other: Box::new(rust) }
    }
}

const fn plain(name: &'static str, word: u32, fields: &'static [(usize, u32)]) -> Case {
    let (sizes, kind, buffers) = (Sizes::Usual, PICTURES, USUAL);
    Case { name, word, fields, sizes, kind, buffers, before: Before::Dequeued, calls: Calls::Many }
}

/// The same on the caption stream.
const fn captions(name: &'static str, fields: &'static [(usize, u32)], case: Case) -> Case {
    Case { name, fields, kind: CAPTIONS, ..case }
}

const WISH: &[(usize, u32)] = &[(0, 1), (4, 300), (8, 201), (12, YU12)];
const BUFFER: &[(usize, u32)] = &[(4, 1), (48, 1)];
const ALL_SERVICES: &[(usize, u32)] = &[(0, CAPTIONS), (4, 0x5401)];
const CAPTION_BUFFER: &[(usize, u32)] = &[(4, CAPTIONS), (48, 1)];

const REQBUFS_CASE: Case =
    Case { before: Before::Queued, calls: Calls::Once, ..plain("REQBUFS", REQBUFS, &[(4, 1), (8, 1)]) };
const QUERYBUF_CASE: Case = Case { before: Before::Filled, ..plain("QUERYBUF", QUERYBUF, BUFFER) };
const QBUF_CASE: Case = Case { calls: Calls::Buffers, ..plain("QBUF", QBUF, BUFFER) };
const DQBUF_CASE: Case = Case { before: Before::Filled, calls: Calls::Buffers, ..plain("DQBUF", DQBUF, BUFFER) };
const STREAMOFF_CASE: Case =
    Case { before: Before::Filled, calls: Calls::Once, ..plain("STREAMOFF", STREAMOFF, &[(0, 1)]) };

const S_FMT_CASE: Case = Case { buffers: 0, ..plain("S_FMT", S_FMT, WISH) };
const TRY_FMT_CASE: Case = plain("TRY_FMT", TRY_FMT, WISH);

const CASES: [Case; 23] = [
    plain("QUERYCAP", QUERYCAP, &[]),
    plain("ENUM_FMT", ENUM_FMT, &[(0, 1), (4, 1)]),
    plain("G_FMT", G_FMT, &[(0, 1)]),
    // Refused while there are buffers, so there are none.
    S_FMT_CASE,
    TRY_FMT_CASE,
    REQBUFS_CASE,
    QUERYBUF_CASE,
    QBUF_CASE,
    DQBUF_CASE,
    Case { before: Before::Queued, calls: Calls::Once, ..plain("STREAMON", STREAMON, &[(0, 1)]) },
    STREAMOFF_CASE,
    plain("G_CTRL", G_CTRL, &[(0, CONTRAST)]),
    plain("S_CTRL", S_CTRL, &[(0, CONTRAST), (4, 7)]),
    plain("QUERYCTRL", QUERYCTRL, &[(0, CONTRAST)]),
    plain("CROPCAP", CROPCAP, &[(0, 1)]),
    plain("G_CROP", G_CROP, &[(0, 1)]),
    plain("S_CROP", S_CROP, &[(0, 1), (4, 100), (8, 20), (12, 608), (16, 300)]),
    plain("G_SLICED_VBI_CAP", G_SLICED_VBI_CAP, &[(100, CAPTIONS)]),
    captions("S_FMT of captions", ALL_SERVICES, S_FMT_CASE),
    captions("TRY_FMT of captions", ALL_SERVICES, TRY_FMT_CASE),
    captions("QBUF of captions", CAPTION_BUFFER, QBUF_CASE),
    captions("DQBUF of captions", CAPTION_BUFFER, DQBUF_CASE),
    plain("an unknown word", UNKNOWN, &[]),
];

/// What the second table says of its calls.
const BY_BUFFERS: [(Case, &str); 5] = [
    (QUERYBUF_CASE, "QUERYBUF of the last in line, all filled"),
    (QBUF_CASE, "QBUF of each in turn, from none in line to all"),
    (DQBUF_CASE, "DQBUF of each in turn, from all filled to none"),
    (REQBUFS_CASE, "REQBUFS of as many anew, all in line and waiting"),
    (STREAMOFF_CASE, "STREAMOFF, all filled"),
];

/// The calls of the third table, and the sheets that they are made on.
const NEGOTIATING: [Case; 2] = [S_FMT_CASE, TRY_FMT_CASE];
const BY_SIZES: [(Sizes, &str); 2] = [(Sizes::One, "one size"), (Sizes::Most, "4,096 x 4,096 sizes")];

/// A call, and the device that it goes to. The argument is written before the clock starts.
struct Step {
    device: usize,
    argument: Vec<u8>,
}

struct Batch<R> {
    case: Case,
    devices: Vec<Aligned<R>>,
    steps: Vec<Step>,
    first: Vec<Vec<u8>>,
    memory: Vec<u8>,
}

impl<R: Called> Batch<R> {
    fn new(case: Case, make: impl Fn() -> R) -> Batch<R> {
        let (count, each) = case.shape();
        let mut devices: Vec<Aligned<R>> = (0..count).map(|_| Aligned(make())).collect();
        for Aligned(device) in &mut devices {
            setup::small(device, case.sizes, case.kind, case.buffers);
        }
        let first: Vec<Vec<u8>> = (0..each).map(|number| case.argument(number)).collect();
        let steps = (0..count * each).map(|i| Step { device: i / each, argument: first[i % each].clone() }).collect();
        Batch { case, devices, steps, first, memory: vec![0; setup::MEMORY] }
    }

    /// The answers of a batch. Each call has to be accepted, or the figure would be that of a refusal.
    fn answers(&mut self) -> Vec<Vec<u8>> {
        self.ready();
        for step in &mut self.steps {
            let number = self.devices[step.device].0.request(self.case.word, &mut step.argument);
            assert_eq!(number, self.case.expected(), "{}", self.case.name);
        }
        self.steps.iter().map(|step| step.argument.clone()).collect()
    }
}

impl<R: Called> Side for Batch<R> {
    fn ready(&mut self) {
        let each = self.first.len();
        for (i, step) in self.steps.iter_mut().enumerate() {
            step.argument.copy_from_slice(&self.first[i % each]);
        }
        let Case { kind, buffers, before, .. } = self.case;
        for Aligned(device) in &mut self.devices {
            setup::done(device, STREAMOFF, &[(0, kind)]);
            if matches!(before, Before::Queued | Before::Filled) {
                setup::queue(device, kind, buffers);
            }
            if matches!(before, Before::Filled) {
                setup::fill(device, kind, buffers, &mut self.memory);
            }
        }
    }

    fn batch(&mut self) {
        let word = black_box(self.case.word);
        for step in &mut self.steps {
            black_box(self.devices[step.device].0.call_request(word, &mut step.argument));
        }
    }

    fn calls(&self) -> usize {
        self.steps.len()
    }
}

/// All requests, with the usual number of buffers.
pub fn all() -> Vec<Row> {
    CASES.iter().map(|case| case.row(case.name.into())).collect()
}

/// The requests whose cost can depend on the number of buffers.
pub fn by_buffers() -> Vec<Row> {
    let rows = BY_BUFFERS.iter().flat_map(|(case, name)| COUNTS.map(|count| (case.with(count), name, count)));
    rows.map(|(case, name, count)| case.row(format!("{name}: {count} buffers"))).collect()
}

/// The requests that look for a size, where there is one to find and where there are most.
pub fn by_sizes() -> Vec<Row> {
    let rows = NEGOTIATING.iter().flat_map(|case| BY_SIZES.map(|(sizes, name)| (Case { sizes, ..*case }, name)));
    rows.map(|(case, name)| case.row(format!("{}: {name}", case.name))).collect()
}
