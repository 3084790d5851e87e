//! A device in the middle of a run of each stream whose words hold what no history leads to: each word by itself, the numbers
//! of a line together, the count of a run together with its next number, and maps together with what
//! they go by. On each such device every call is made once.

use crate::anything::{arrival, change, check, plane, request, slot_of, verdicts, Memories};
use crate::anything::{NUMBERS_16, NUMBERS_32, NUMBERS_64};
use crate::ask::done;
use crate::coverage::Coverage;
use crate::draft::Draft;
use crate::ffi::{at, Device};
use crate::model::bytes::put;
use crate::model::format::GREY;
use crate::model::words::*;
use crate::model::RUN_LIMIT;
use crate::random::Random;
use crate::recorder::{Arrived, Recorder, CAPTIONS, PICTURES, REFUSED, STORED, STREAMS};
use crate::session::{Arrival, Change, Frame, Lent, Mapping, Step};
use crate::show;

const BUFFERS: usize = 8;
const SMALLEST: usize = 4;
const LOAD: [u32; 3] = [0x1000, 0, 21];
const CONTRAST: u32 = 0x0098_0901;

/// Where the image size of the format stands.
const IMAGE_SIZE: usize = at::SETUP + 20;

/// A frame that the stream of this place takes: the smallest picture, or the load line.
fn frame(place: usize) -> Frame {
    [Frame::plain(SMALLEST, 1), Frame::records(vec![LOAD], 1)][place].clone()
}

/// A device and its memories.
struct Bench {
    device: Device,
    memories: Memories,
    random: Random,
    coverage: Coverage,
}

impl Bench {
    /// Of each stream a run is on. Its line begins at place 30 and goes on at place 0: buffers 3 and 4 hold a frame, 5 and 6
    /// wait.
    fn new() -> Bench {
        let sheet = Draft {
            formats: vec![(GREY, [0; 32])],
            width: [2, 640, 2],
            height: [2, 480, 2],
            alignment: 2,
            ..Draft::bench()
        };
        let mut memories = Memories::default();
        memories.iter_mut().for_each(|memory| memory.reset(BUFFERS * 4096, 0));
        let mut device = Device::zeroed();
        assert_eq!(device.open(&sheet.bytes(), [BUFFERS as u64 * 4096; 2]), 0);
        done(&mut device, S_FMT, &[(0, PICTURES), (4, 2), (8, 2), (12, GREY)]);
        done(&mut device, S_FMT, &[(0, CAPTIONS), (4, LOAD[0])]);
        let mut bench = Bench { device, memories, random: Random::new(1), coverage: Coverage::default() };
        for place in [0, 1] {
            bench.begin(place);
        }
        bench
    }

    /// The run of the stream of this place, and its line.
    fn begin(&mut self, place: usize) {
        let kind = STREAMS[place];
        done(&mut self.device, REQBUFS, &[(0, BUFFERS as u32), (4, kind), (8, 1)]);
        done(&mut self.device, STREAMON, &[(0, kind)]);
        for _ in 0..30 {
            self.queue(kind, 0);
            self.store(place);
            done(&mut self.device, DQBUF, &[(4, kind), (48, 1)]);
        }
        for index in [3, 4, 5, 6] {
            self.queue(kind, index);
        }
        self.store(place);
        self.store(place);
        let line = LINE.map(|at| self.device.word(at::STREAMS[place] + at));
        assert_eq!((line[0] % 32, line[1], line[2], line[3]), (30, 2, 4, 8));
    }

    fn queue(&mut self, kind: u32, index: u32) {
        done(&mut self.device, QBUF, &[(0, index), (4, kind), (48, 1)]);
    }

    fn store(&mut self, place: usize) {
        let memory = self.memories[place].body_mut();
        assert_eq!(self.device.arrival(STREAMS[place], memory, &frame(place).bytes(), 1, 2).answer, STORED);
    }

    /// Every call, each on a copy of this device.
    fn every_call(&mut self, device: &Device) -> Result<(), String> {
        for (word, argument) in requests() {
            let step = || show::step(&Step::Request { word, argument: argument.clone() });
            let number =
                request(&mut device.clone(), word, &argument).map_err(|fault| format!("{}: {fault}", step()))?;
            self.coverage.request(word, &argument, number);
        }
        for (place, kind) in [(0, PICTURES), (1, CAPTIONS), (0, 2)] {
            let whole = frame(place);
            let damaged = Frame { length: whole.length - 1, ..whole.clone() };
            for (frame, lent) in [(&whole, Lent::Own), (&damaged, Lent::Own), (&whole, Lent::Other(100))] {
                let one = Arrival { kind, lent, frame: frame.clone(), seconds: -1, microseconds: 999_999 };
                let arrived = arrival(&mut device.clone(), &mut self.memories, &one, &mut self.random)
                    .map_err(|fault| format!("arrival of {} bytes of type {kind}: {fault}", frame.length))?;
                self.coverage.arrival(kind, arrived);
            }
        }
        self.every_change(device)?;
        for index in 0..4 {
            plane(device, SMALLEST, index)?;
        }
        verdicts(device)
    }

    /// Maps and unmaps of several buffers, by the slots of this device and by the least one.
    fn every_change(&mut self, device: &Device) -> Result<(), String> {
        for kind in [PICTURES, CAPTIONS, 2] {
            let least = Mapping { kind, offset: 4096, length: 4096, times: 1 };
            let slots = [0, 3, 7, 8, 31, 32].map(|index| slot_of(device, kind, index));
            for mapping in slots.into_iter().chain([least]) {
                for (one, step) in [(Change::Map, Step::Map(mapping)), (Change::Unmap, Step::Unmap(mapping))] {
                    let number = change(&mut device.clone(), one, &mapping)
                        .map_err(|fault| format!("{}: {fault}", show::step(&step)))?;
                    self.coverage.change(one, kind, number);
                }
            }
        }
        Ok(())
    }

    /// A buffer goes through each line of this device, or is refused.
    fn round(&mut self, mut device: Device) -> Result<(), String> {
        for (place, kind) in STREAMS.into_iter().enumerate() {
            let argument = filled(QBUF, &[(0, 1), (4, kind), (48, 1)]);
            let one = Arrival { kind, lent: Lent::Own, frame: frame(place), seconds: 5, microseconds: 6 };
            for _ in 0..3 {
                request(&mut device, QBUF, &argument)?;
                arrival(&mut device, &mut self.memories, &one, &mut self.random)?;
                request(&mut device, DQBUF, &argument)?;
            }
        }
        Ok(())
    }

    /// Two frames arrive at the stream of this place, for which buffers 5 and 6 wait: the numbers that they get, as long as the
    /// run is not at its limit. The other stream goes on by its own count.
    fn two_arrivals(&mut self, mut device: Device, place: usize, accepted: u64, next: u32) -> Result<(), String> {
        let stored = |number, buffer| Arrived { answer: STORED, number, buffer };
        for (count, buffer) in [(accepted, 5), (accepted.saturating_add(1), 6)] {
            let number = next.wrapping_add(buffer - 5);
            let expected = match count {
                0..RUN_LIMIT => stored(number, buffer),
                _ => Arrived { answer: REFUSED, number: 75, buffer: 0 },
            };
            let arrived = self.arrives(&mut device, place);
            check(arrived == expected, &format!("{arrived:?} instead of {expected:?}"))?;
        }
        check(self.arrives(&mut device, 1 - place) == stored(32, 5), "the other stream does not go on")
    }

    fn arrives(&mut self, device: &mut Device, place: usize) -> Arrived {
        device.arrival(STREAMS[place], self.memories[place].body_mut(), &frame(place).bytes(), 1, 2)
    }

    /// Two devices give the same answers to every call.
    fn same_answers(&mut self, left: &Device, right: &Device) -> Result<(), String> {
        for (word, argument) in requests() {
            let (mut one, mut two) = (argument.clone(), argument.clone());
            let same = left.clone().request(word, &mut one) == right.clone().request(word, &mut two) && one == two;
            check(same, &format!("{}: other answers", show::step(&Step::Request { word, argument })))?;
        }
        for (place, kind) in STREAMS.into_iter().enumerate() {
            let (memory, frame) = (self.memories[place].body_mut(), frame(place).bytes());
            let one = left.clone().arrival(kind, memory, &frame, 1, 2);
            let two = right.clone().arrival(kind, memory, &frame, 1, 2);
            let same = one == two && left.verdict(kind) == right.verdict(kind);
            check(same, &format!("an arrival or the verdict of type {kind}: other answers"))?;
        }
        Ok(())
    }
}

/// The numbers of a line.
const LINE: [usize; 4] = [at::HEAD, at::HOLDING, at::LINED, at::GRANTED];

fn filled(word: u32, fields: &[(usize, u32)]) -> Vec<u8> {
    let mut argument = vec![0; size(word)];
    for (at, value) in fields {
        put(&mut argument, *at, *value);
    }
    argument
}

/// Each request with an argument that a device can accept, of each stream; those about one buffer for several.
fn requests() -> Vec<(u32, Vec<u8>)> {
    let fixed: [(u32, &[(usize, u32)]); 10] = [
        (QUERYCAP, &[]),
        (ENUM_FMT, &[(4, 1)]),
        (S_FMT, &[(0, 1), (4, 2), (8, 2), (12, GREY)]),
        (G_CTRL, &[(0, CONTRAST)]),
        (S_CTRL, &[(0, CONTRAST), (4, 7)]),
        (QUERYCTRL, &[(0, CONTRAST)]),
        (CROPCAP, &[(0, 1)]),
        (G_CROP, &[(0, 1)]),
        (S_CROP, &[(0, 1), (4, 100), (8, 20), (12, 608), (16, 300)]),
        (G_SLICED_VBI_CAP, &[(100, 6)]),
    ];
    let fixed = fixed.iter().map(|(word, fields)| (*word, filled(*word, fields)));
    fixed.chain(STREAMS.into_iter().flat_map(of_stream)).collect()
}

/// The requests about one stream.
fn of_stream(kind: u32) -> Vec<(u32, Vec<u8>)> {
    let fixed: [(u32, &[(usize, u32)]); 8] = [
        (G_FMT, &[(0, kind)]),
        (S_FMT, &[(0, kind), (4, 0x5401), (8, 2)]),
        (TRY_FMT, &[(0, kind), (4, 300), (8, 201)]),
        (REQBUFS, &[(0, 8), (4, kind), (8, 1)]),
        (REQBUFS, &[(4, kind), (8, 1)]),
        (DQBUF, &[(4, kind), (48, 1)]),
        (STREAMON, &[(0, kind)]),
        (STREAMOFF, &[(0, kind)]),
    ];
    let fixed = fixed.iter().map(|(word, fields)| (*word, filled(*word, fields)));
    let of_buffers = [0, 3, 6, 7, 31, 32]
        .into_iter()
        .flat_map(|index| [QUERYBUF, QBUF].map(|word| (word, filled(word, &[(0, index), (4, kind), (48, 1)]))));
    fixed.chain(of_buffers).collect()
}

/// Each word of the setup, the values and the streams, and each set of services, holds each of many numbers, one at a time.
pub fn each_word() -> Result<Coverage, String> {
    let mut bench = Bench::new();
    let words = (at::SETUP..at::VIDEO).step_by(4).flat_map(|at| NUMBERS_32.map(|word| (at, word.into(), 4)));
    let words = words.chain((at::VIDEO..at::SERVICES).step_by(8).flat_map(|at| NUMBERS_64.map(|word| (at, word, 8))));
    let words =
        words.chain((at::SERVICES..at::END).step_by(2).flat_map(|at| NUMBERS_16.map(|word| (at, word.into(), 2))));
    for (at, word, bytes) in words {
        let mut device = bench.device.clone();
        device.bytes[at..at + bytes].copy_from_slice(&u64::to_le_bytes(word)[..bytes]);
        let tried = bench.every_call(&device).and_then(|()| bench.round(device));
        tried.map_err(|fault| format!("{word:#x} at {at}: {fault}"))?;
    }
    Ok(bench.coverage)
}

/// Head, holding, lined and granted of a stream hold many numbers together. A line that is too long counts as 32, one that
/// holds more than it has as all of it, and where it begins counts modulo 32.
pub fn each_line() -> Result<Coverage, String> {
    let mut bench = Bench::new();
    let heads = [0, 1, 30, 31, 32, 33, (1 << 32) - 1, 1 << 32, u64::MAX - 1, u64::MAX];
    let counts = [0, 1, 4, 31, 32, 33, (1 << 32) - 1, 1 << 32, (1 << 32) + 2, u64::MAX];
    for (stream, head) in at::STREAMS.into_iter().flat_map(|stream| heads.map(|head| (stream, head))) {
        for (holding, lined) in counts.iter().flat_map(|holding| counts.map(|lined| (*holding, lined))) {
            for granted in [0, 8, 32, u64::MAX] {
                one_line(&mut bench, stream, [head, holding, lined, granted])
                    .map_err(|fault| format!("head {head}, holding {holding}, lined {lined}, {granted}: {fault}"))?;
            }
        }
    }
    Ok(bench.coverage)
}

fn one_line(bench: &mut Bench, stream: usize, [head, holding, lined, granted]: [u64; 4]) -> Result<(), String> {
    let with = |base: &Device, line: [u64; 4]| {
        let mut device = base.clone();
        for (at, word) in LINE.into_iter().zip(line) {
            device.put_word(stream + at, word);
        }
        device
    };
    let device = with(&bench.device, [head, holding, lined, granted]);
    let clamped = with(&bench.device, [head % 32, holding.min(lined).min(32), lined.min(32), granted]);
    bench.every_call(&device)?;
    bench.same_answers(&device, &clamped)?;
    bench.round(device)
}

/// The count and the next number of a run hold many numbers together, most of which no history brings together. The limit goes by
/// the count alone, and the number by the low 32 bits of its word alone.
pub fn each_count() -> Result<Coverage, String> {
    let mut bench = Bench::new();
    let counts = [0, 32, (1 << 32) - 1, 1 << 32, RUN_LIMIT - 1, RUN_LIMIT, RUN_LIMIT + 1, u64::MAX];
    let numbers = [0, 7, (1 << 32) - 2, (1 << 32) - 1, 1 << 32, (1 << 32) + 7, RUN_LIMIT, u64::MAX];
    for (place, accepted) in [0, 1].into_iter().flat_map(|place| counts.map(|accepted| (place, accepted))) {
        for next in numbers {
            one_count(&mut bench, place, accepted, next)
                .map_err(|fault| format!("type {}, {accepted} accepted, next {next:#x}: {fault}", STREAMS[place]))?;
        }
    }
    Ok(bench.coverage)
}

fn one_count(bench: &mut Bench, place: usize, accepted: u64, next: u64) -> Result<(), String> {
    let with = |base: &Device, next: u64| {
        let mut device = base.clone();
        device.put_word(at::STREAMS[place] + at::ACCEPTED, accepted);
        device.put_word(at::STREAMS[place] + at::NEXT_NUMBER, next);
        device
    };
    let (device, low) = (with(&bench.device, next), with(&bench.device, next % (1 << 32)));
    bench.every_call(&device)?;
    bench.same_answers(&device, &low)?;
    bench.two_arrivals(device.clone(), place, accepted, next as u32)?;
    bench.round(device)
}

/// The word of a buffer's maps, how many buffers are granted, and the image size hold many numbers together.
pub fn each_map() -> Result<Coverage, String> {
    let mut bench = Bench::new();
    let counts = [0, 1, 254, 255, 256, (1 << 32) - 1, 1 << 32, u64::MAX];
    let sizes = [0, 4, 4096, 4097, u32::MAX - 4095, u32::MAX - 4094, u32::MAX];
    for (stream, index) in at::STREAMS.into_iter().flat_map(|stream| [0, 3, 7, 31].map(|index| (stream, index))) {
        for (count, granted) in counts.iter().flat_map(|count| [0, 8, 31, 32, 33, u64::MAX].map(|all| (*count, all))) {
            for size in sizes {
                let mut device = bench.device.clone();
                device.put_word(stream + at::MAPS + 8 * index, count);
                device.put_word(stream + at::GRANTED, granted);
                put(&mut device.bytes, IMAGE_SIZE, size);
                let tried = bench.every_call(&device).and_then(|()| bench.round(device));
                tried.map_err(|fault| format!("buffer {index} of {granted}, {count} maps, image {size}: {fault}"))?;
            }
        }
    }
    Ok(bench.coverage)
}
