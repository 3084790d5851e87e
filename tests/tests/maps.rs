//! Maps of buffers: which places can be mapped and how often, what is told of them, and what they stand in the way of.

use tollgutter_tests::ask::{ask, done};
use tollgutter_tests::draft::Draft;
use tollgutter_tests::model;
use tollgutter_tests::model::bytes::{put, word};
use tollgutter_tests::model::words::*;
use tollgutter_tests::recorder::*;
use tollgutter_tests::session::Frame;

/// So many buffers are granted, of those that the memories hold.
const BUFFERS: u32 = 5;
const MOST: u32 = 255;
const LENGTHS: [u64; 2] = [1 << 18, 1 << 15];
const SLOTS: [u32; 2] = [40_960, 4096];
const OTHER_TYPES: [u32; 8] = [0, 2, 5, 7, 9, 0x101, 0x0100_0006, u32::MAX];

/// A device with buffers of both streams, all dequeued, its memories, and a frame that each stream takes.
struct Bench<R> {
    device: R,
    memories: [Vec<u8>; 2],
    frames: [Vec<u8>; 2],
}

fn place(kind: u32) -> usize {
    usize::from(kind == CAPTIONS)
}

fn slot(kind: u32) -> u32 {
    SLOTS[place(kind)]
}

impl<R: Recorder> Bench<R> {
    fn new(device: R) -> Bench<R> {
        let memories = LENGTHS.map(|length| vec![0x5a; length as usize]);
        let frames = [vec![3; 38_400], Frame::records(vec![[0x1000, 0, 21]], 3).bytes()];
        let mut bench = Bench { device, memories, frames };
        bench.open();
        for (kind, slot) in STREAMS.into_iter().zip(SLOTS) {
            assert_eq!(bench.request(kind, BUFFERS), 0);
            let last = bench.done(QUERYBUF, &[(0, BUFFERS - 1), (4, kind)]);
            assert_eq!([word(&last, 52), word(&last, 56)], [(BUFFERS - 1) * slot, slot]);
        }
        bench
    }

    /// A device with formats and without buffers.
    fn open(&mut self) {
        assert_eq!(self.device.open(&Draft::bench().bytes(), LENGTHS), 0);
        self.done(S_FMT, &[(0, PICTURES), (4, 160), (8, 120)]);
        self.done(S_FMT, &[(0, CAPTIONS), (4, 0x1000)]);
    }

    fn done(&mut self, request: u32, fields: &[(usize, u32)]) -> Vec<u8> {
        done(&mut self.device, request, fields)
    }

    /// The number that REQBUFS of this count gives.
    fn request(&mut self, kind: u32, count: u32) -> u32 {
        ask(&mut self.device, REQBUFS, &[(0, count), (4, kind), (8, 1)]).0
    }

    fn map(&mut self, kind: u32, index: u32) -> u32 {
        self.device.map(kind, index * slot(kind), slot(kind))
    }

    fn unmap(&mut self, kind: u32, index: u32) -> u32 {
        self.device.unmap(kind, index * slot(kind), slot(kind))
    }

    /// Both calls at one place.
    fn both(&mut self, kind: u32, offset: u32, length: u32) -> [u32; 2] {
        [self.device.map(kind, offset, length), self.device.unmap(kind, offset, length)]
    }

    fn flags(&mut self, kind: u32, index: u32) -> u32 {
        word(&self.done(QUERYBUF, &[(0, index), (4, kind)]), 12)
    }

    /// The flags that QBUF answers.
    fn queue(&mut self, kind: u32, index: u32) -> u32 {
        word(&self.done(QBUF, &[(0, index), (4, kind), (48, 1)]), 12)
    }

    /// The index and the flags that DQBUF answers; the frame comes back whole.
    fn dequeue(&mut self, kind: u32) -> [u32; 2] {
        let answer = self.done(DQBUF, &[(4, kind), (48, 1)]);
        let (from, frame) = (word(&answer, 52) as usize, &self.frames[place(kind)]);
        assert_eq!(word(&answer, 8) as usize, frame.len());
        assert!(self.memories[place(kind)][from..from + frame.len()] == frame[..], "the frame is not in its slot");
        [word(&answer, 0), word(&answer, 12)]
    }

    fn arrive(&mut self, kind: u32) -> Arrived {
        let place = place(kind);
        self.device.arrival(kind, &mut self.memories[place], &self.frames[place], 7, 8)
    }

    /// All that the device keeps, as far as it can be seen: what it is made of, or else the maps.
    fn kept(&self) -> (Vec<u8>, [Option<Maps>; 2]) {
        let mut bytes = Vec::new();
        self.device.content(&mut bytes);
        (bytes, STREAMS.map(|kind| self.device.maps(kind)))
    }

    /// What the calls do that is given here changes nothing.
    fn changes_nothing(&mut self, calls: impl FnOnce(&mut Self)) {
        let before = self.kept();
        calls(self);
        assert!(self.kept() == before, "a refusal changed something");
    }
}

/// The slot of each buffer that was granted, and nothing else.
fn places<R: Recorder>(make: &impl Fn() -> R, kind: u32, other: u32) {
    let mut bench = Bench::new(make());
    let slot = slot(kind);
    // One map of each is left, so that an unmap finds one if it finds a buffer.
    for index in 0..BUFFERS {
        assert_eq!([bench.map(kind, index), bench.map(other, index)], [0, 0]);
    }
    for index in 0..BUFFERS {
        let from = index * slot;
        assert_eq!(bench.both(kind, from, slot), [0, 0]);
        bench.changes_nothing(|bench| {
            for offset in [1, 2, 64, slot / 2, slot - 1].map(|more| from + more) {
                assert_eq!(bench.both(kind, offset, slot), [22, 22], "offset {offset}");
            }
            let frame_size = bench.frames[place(kind)].len() as u32;
            for length in [0, 1, slot - 1, slot + 1, 2 * slot, BUFFERS * slot, frame_size, slot | 1 << 31, u32::MAX] {
                assert_eq!(bench.both(kind, from, length), [22, 22], "length {length}");
            }
            for kind in OTHER_TYPES {
                assert_eq!(bench.both(kind, from, slot), [22, 22], "type {kind}");
            }
        });
    }
    bench.changes_nothing(|bench| {
        // The memory holds one more than was granted.
        for index in [BUFFERS, BUFFERS + 1, 31, 32, 33] {
            assert_eq!(bench.both(kind, index * slot, slot), [22, 22], "buffer {index}");
        }
        for offset in [u32::MAX, u32::MAX - slot + 1, 1 << 31, 0u32.wrapping_sub(slot), (1 << 31) - 1] {
            assert_eq!(bench.both(kind, offset, slot), [22, 22], "offset {offset}");
        }
        assert_eq!(bench.both(kind, 0, SLOTS[place(other)]), [22, 22], "the slot of the other stream");
    });
    for index in 0..BUFFERS {
        assert_eq!([bench.unmap(kind, index), bench.unmap(kind, index), bench.unmap(other, index)], [0, 22, 0]);
    }
}

/// A buffer has up to 255 maps, each buffer by itself; the flag is told as long as there is one.
fn counts<R: Recorder>(make: &impl Fn() -> R, kind: u32, other: u32) {
    let mut bench = Bench::new(make());
    assert_eq!(bench.unmap(kind, 2), 22);
    for _ in 0..MOST {
        assert_eq!(bench.map(kind, 2), 0);
    }
    bench.changes_nothing(|bench| assert_eq!([bench.map(kind, 2), bench.map(kind, 2)], [75, 75]));
    // The place is looked at first.
    assert_eq!(bench.both(kind, 2 * slot(kind), slot(kind) - 1), [22, 22]);
    // Another buffer, and the same of the other stream, have their own counts.
    bench.changes_nothing(|bench| {
        assert_eq!([bench.unmap(kind, 1), bench.unmap(kind, 3), bench.unmap(other, 2)], [22, 22, 22]);
    });
    assert_eq!([bench.map(kind, 3), bench.map(other, 2)], [0, 0]);
    // One off, one on.
    assert_eq!([bench.unmap(kind, 2), bench.map(kind, 2), bench.map(kind, 2)], [0, 0, 75]);
    for _ in 0..MOST {
        assert_eq!((bench.flags(kind, 2), bench.request(kind, 0)), (1, 16));
        assert_eq!(bench.unmap(kind, 2), 0);
    }
    bench.changes_nothing(|bench| assert_eq!([bench.unmap(kind, 2), bench.unmap(kind, 2)], [22, 22]));
    assert_eq!([0, 1, 2, 3, 4].map(|index| bench.flags(kind, index)), [0, 0, 0, 1, 0]);
    assert_eq!([0, 1, 2, 3, 4].map(|index| bench.flags(other, index)), [0, 0, 1, 0, 0]);
    assert_eq!([bench.unmap(kind, 3), bench.unmap(other, 2)], [0, 0]);
}

/// Flags 1, 3 and 5 of a buffer that is mapped where another has 0, 2 and 4, all the way through the queues.
fn flags<R: Recorder>(make: &impl Fn() -> R, kind: u32, other: u32) {
    let mut bench = Bench::new(make());
    assert_eq!([bench.map(kind, 0), bench.map(kind, 0), bench.map(kind, 3)], [0, 0, 0]);
    assert_eq!([0, 1, 3].map(|index| bench.flags(kind, index)), [1, 0, 1]);
    assert_eq!([0, 1, 3].map(|index| bench.flags(other, index)), [0, 0, 0]);
    assert_eq!([3, 1, 0].map(|index| bench.queue(kind, index)), [3, 2, 3]);
    assert_eq!([0, 1, 3].map(|index| bench.flags(kind, index)), [3, 2, 3]);
    bench.done(STREAMON, &[(0, kind)]);
    for (number, buffer) in [(0, 3), (1, 1)] {
        assert_eq!(bench.arrive(kind), Arrived { answer: STORED, number, buffer });
    }
    assert_eq!([0, 1, 3].map(|index| bench.flags(kind, index)), [3, 4, 5]);
    // Whether it waits or holds a frame, it can be mapped and unmapped.
    assert_eq!([bench.unmap(kind, 3), bench.map(kind, 1), bench.unmap(kind, 0)], [0, 0, 0]);
    assert_eq!([0, 1, 3].map(|index| bench.flags(kind, index)), [3, 5, 4]);
    assert_eq!(bench.unmap(kind, 0), 0);
    assert_eq!(bench.flags(kind, 0), 2);
    assert_eq!([bench.dequeue(kind), bench.dequeue(kind)], [[3, 0], [1, 1]]);
    assert_eq!([0, 1, 3].map(|index| bench.flags(kind, index)), [2, 1, 0]);
    assert_eq!([bench.arrive(kind).buffer, bench.arrive(kind).answer], [0, DROPPED]);
    assert_eq!(bench.map(kind, 0), 0);
    assert_eq!(bench.dequeue(kind), [0, 1]);
    assert_eq!(bench.queue(kind, 1), 3);
    // One was dropped.
    bench.done(STREAMOFF, &[(0, kind)]);
    assert_eq!((bench.device.verdict(kind), bench.device.verdict(other)), (GAPS, BLANK));
}

/// No buffers are granted or given up while one is mapped, whichever it is; the other stream's do not matter.
fn requests<R: Recorder>(make: &impl Fn() -> R, kind: u32, other: u32) {
    let mut bench = Bench::new(make());
    assert_eq!(bench.map(other, 0), 0);
    for index in 0..BUFFERS {
        assert_eq!(bench.queue(kind, 4 - index), 2);
        assert_eq!(bench.map(kind, index), 0);
        bench.changes_nothing(|bench| {
            for count in [0, 1, BUFFERS, 32, 33, u32::MAX] {
                assert_eq!(bench.request(kind, count), 16, "{count} while {index} is mapped");
            }
            // The length, the type and the memory come first.
            assert_eq!(bench.device.request(REQBUFS, &mut [0; 19]), 14);
            for (kind, memory) in [(kind, 0), (kind, 2), (2, 1), (0, 1)] {
                assert_eq!(ask(&mut bench.device, REQBUFS, &[(4, kind), (8, memory)]).0, 22);
            }
        });
        // The argument stays as it was asked, and the queue as it stood.
        let mut argument = vec![0xee; 20];
        put(&mut argument, 4, kind);
        put(&mut argument, 8, 1);
        let asked = argument.clone();
        assert_eq!((bench.device.request(REQBUFS, &mut argument), argument == asked), (16, true));
        assert_eq!(bench.flags(kind, 4 - index) & 2, 2);
        assert_eq!(bench.unmap(kind, index), 0);
        assert_eq!(bench.request(kind, BUFFERS), 0);
        assert_eq!((bench.flags(kind, index), bench.unmap(kind, index)), (0, 22));
    }
    // What is granted anew can be mapped, and what is no longer granted cannot.
    assert_eq!(bench.request(kind, 2), 0);
    assert_eq!([bench.map(kind, 1), bench.map(kind, 2)], [0, 22]);
    assert_eq!([bench.unmap(kind, 1), bench.request(kind, 0), bench.map(kind, 0)], [0, 0, 22]);
    // The other stream has kept its map, and its format can change no more than before.
    assert_eq!(
        [bench.flags(other, 0), bench.request(other, 0), ask(&mut bench.device, S_FMT, &[(0, other)]).0],
        [1, 16, 16]
    );
    assert_eq!(ask(&mut bench.device, S_FMT, &[(0, kind)]).0, 0);
}

/// In a run: a request for buffers, of none too, leaves it on, and the frame that is stored comes back whole.
fn in_a_run<R: Recorder>(make: &impl Fn() -> R, kind: u32, other: u32) {
    let mut bench = Bench::new(make());
    assert_eq!([bench.queue(kind, 1), bench.queue(kind, 4)], [2, 2]);
    bench.done(STREAMON, &[(0, kind)]);
    assert_eq!(bench.arrive(kind), Arrived { answer: STORED, number: 0, buffer: 1 });
    // One that is with the client is mapped, neither of the line.
    assert_eq!(bench.map(kind, 2), 0);
    bench.changes_nothing(|bench| assert_eq!([0, 1, BUFFERS].map(|count| bench.request(kind, count)), [16; 3]));
    assert_eq!((bench.device.verdict(kind), bench.flags(kind, 1), bench.flags(kind, 4)), (RUNNING, 4, 2));
    assert_eq!(bench.request(other, 3), 0);
    assert_eq!(bench.arrive(kind), Arrived { answer: STORED, number: 1, buffer: 4 });
    assert_eq!([bench.request(kind, 0), bench.dequeue(kind)[0], bench.dequeue(kind)[0]], [16, 1, 4]);
    assert_eq!((bench.device.verdict(kind), bench.unmap(kind, 2)), (RUNNING, 0));
    // Without a map: of some it is refused since a run is on, and of none it ends the run.
    assert_eq!([bench.request(kind, 1), bench.request(kind, 0)], [16, 0]);
    assert_eq!(bench.device.verdict(kind), COMPLETE);
}

/// A stop and a start leave the maps; maps leave the verdict and the memory.
fn stops<R: Recorder>(make: &impl Fn() -> R, kind: u32) {
    let mut bench = Bench::new(make());
    let held = bench.memories.clone();
    assert_eq!([bench.map(kind, 1), bench.map(kind, 1), bench.queue(kind, 1), bench.queue(kind, 0)], [0, 0, 3, 2]);
    for _ in 0..2 {
        bench.done(STREAMON, &[(0, kind)]);
        assert_eq!(bench.request(kind, 0), 16);
        bench.done(STREAMOFF, &[(0, kind)]);
        assert_eq!((bench.device.verdict(kind), bench.flags(kind, 1), bench.flags(kind, 0)), (BLANK, 1, 0));
        assert_eq!([bench.request(kind, 0), bench.request(kind, 1)], [16, 16]);
        assert_eq!(ask(&mut bench.device, S_FMT, &[(0, kind)]).0, 16);
    }
    assert!(bench.memories == held, "a map changed the memory");
    assert_eq!([0; 3].map(|_| bench.unmap(kind, 1)), [0, 0, 22]);
    assert_eq!(bench.request(kind, 0), 0);
}

/// Nothing can be mapped on a closed device, before buffers are granted, or without frames; an opening forgets all maps.
fn openings<R: Recorder>(make: &impl Fn() -> R, kind: u32) {
    let mut device = make();
    for kind in STREAMS.into_iter().chain(OTHER_TYPES) {
        assert_eq!([device.map(kind, 0, 4096), device.unmap(kind, 0, 4096)], [22, 22]);
        assert_eq!([device.map(kind, 0, 0), device.unmap(kind, 0, 0)], [22, 22]);
    }
    let mut bench = Bench::new(device);
    assert_eq!([bench.map(kind, 0), bench.map(kind, 4)], [0, 0]);
    bench.open();
    // Formats, and no buffers.
    assert_eq!([0, 4].map(|index| bench.both(kind, index * slot(kind), slot(kind))), [[22, 22]; 2]);
    assert_eq!(bench.request(kind, BUFFERS), 0);
    assert_eq!([0, 4].map(|index| (bench.flags(kind, index), bench.unmap(kind, index))), [(0, 22); 2]);
    assert_eq!(bench.map(kind, 4), 0);
    // Bad bytes close it.
    assert_eq!(bench.device.open(&[], LENGTHS), 22);
    assert_eq!(bench.both(kind, 4 * slot(kind), slot(kind)), [22, 22]);
    bench.open();
    assert_eq!([bench.request(kind, BUFFERS), bench.unmap(kind, 4), bench.request(kind, 0)], [0, 22, 0]);
    // Without services there is no frame and no slot, and without memory no buffer.
    bench.done(S_FMT, &[(0, CAPTIONS)]);
    assert_eq!(bench.request(CAPTIONS, BUFFERS), 0);
    assert_eq!([0, 64, 4096].map(|length| bench.both(CAPTIONS, 0, length)), [[22, 22]; 3]);
    assert_eq!(bench.device.open(&Draft::bench().bytes(), [0, 0]), 0);
    assert_eq!(bench.request(kind, BUFFERS), 0);
    let length = word(&bench.done(G_FMT, &[(0, PICTURES)]), 24).next_multiple_of(4096);
    assert_eq!([0, length].map(|length| bench.both(PICTURES, 0, length)), [[22, 22]; 2]);
}

/// All 32 buffers can be mapped at once; the last to be unmapped is the last in the way.
fn all_buffers<R: Recorder>(make: &impl Fn() -> R, kind: u32) {
    let mut bench = Bench::new(make());
    let sheet = Draft { width: [2, 640, 2], height: [2, 480, 2], alignment: 2, ..Draft::bench() };
    assert_eq!(bench.device.open(&sheet.bytes(), [40 * 4096; 2]), 0);
    bench.done(S_FMT, &[(0, PICTURES), (4, 2), (8, 2)]);
    bench.done(S_FMT, &[(0, CAPTIONS), (4, 0x1000)]);
    assert_eq!(bench.request(kind, u32::MAX), 0);
    for index in 0..32 {
        assert_eq!(bench.device.map(kind, 4096 * index, 4096), 0);
        assert_eq!(bench.flags(kind, index), 1);
    }
    assert_eq!(bench.both(kind, 4096 * 32, 4096), [22, 22]);
    for index in (0..32).map(|turn| 5 * turn % 32) {
        assert_eq!([bench.request(kind, 0), bench.device.unmap(kind, 4096 * index, 4096)], [16, 0]);
        assert_eq!(bench.flags(kind, index), 0);
    }
    assert_eq!(bench.request(kind, 0), 0);
}

/// All of it, for each stream.
fn maps<R: Recorder>(make: impl Fn() -> R) {
    for (kind, other) in [(PICTURES, CAPTIONS), (CAPTIONS, PICTURES)] {
        places(&make, kind, other);
        counts(&make, kind, other);
        flags(&make, kind, other);
        requests(&make, kind, other);
        in_a_run(&make, kind, other);
        stops(&make, kind);
        openings(&make, kind);
        all_buffers(&make, kind);
    }
}

#[test]
fn the_model_counts_maps() {
    maps(model::Device::closed);
}

#[cfg(feature = "library")]
mod library {
    use super::*;
    use tollgutter_tests::ffi::{at, Device};

    #[test]
    fn the_library_counts_maps() {
        maps(Device::zeroed);
    }

    /// The stream of a type, and that of the other one, in the library's device.
    const STREAMS_AT: [(u32, usize, u32); 2] = [(PICTURES, at::VIDEO, CAPTIONS), (CAPTIONS, at::CAPTIONS, PICTURES)];

    fn map_word(stream: usize, index: u32) -> usize {
        stream + at::MAPS + 8 * index as usize
    }

    /// Each accepted call changes the word of its buffer and no other byte.
    #[test]
    fn the_words_are_those_of_the_header() {
        for (kind, stream, other) in STREAMS_AT {
            let mut bench = Bench::new(Device::zeroed());
            for index in [0, 1, 4, 1, 1] {
                let mut expected = bench.device.clone();
                let at = map_word(stream, index);
                expected.put_word(at, expected.word(at) + 1);
                assert_eq!(bench.map(kind, index), 0);
                assert!(bench.device.bytes == expected.bytes, "map {index}");
            }
            let mut counts = [0; 32];
            (counts[0], counts[1], counts[4]) = (1, 3, 1);
            assert_eq!((bench.device.maps(kind), bench.device.maps(other)), (Some(counts), Some([0; 32])));
            let mut expected = bench.device.clone();
            expected.put_word(map_word(stream, 1), 2);
            assert_eq!(bench.unmap(kind, 1), 0);
            assert!(bench.device.bytes == expected.bytes, "unmap");
            // An opening sets them back, a bad one too.
            for sheet in [Draft::bench().bytes(), Vec::new()] {
                bench.device.put_word(map_word(stream, 31), 7);
                bench.device.open(&sheet, LENGTHS);
                assert_eq!(bench.device.maps(kind), Some([0; 32]));
            }
        }
    }

    /// A word that no history leads to: from 255 on nothing is added, from 1 on something can be taken off.
    #[test]
    fn a_word_may_hold_any_number() {
        for (kind, stream, _) in STREAMS_AT {
            let words = [0, 1, 2, 253, 254, 255, 256, 511, (1 << 32) - 1, 1 << 32, 1 << 63, u64::MAX - 1, u64::MAX];
            for (index, before) in (0..BUFFERS).flat_map(|index| words.map(|word| (index, word))) {
                let mut bench = Bench::new(Device::zeroed());
                let at = map_word(stream, index);
                bench.device.put_word(at, before);
                assert_eq!(bench.flags(kind, index), u32::from(before != 0), "{before}");
                let number = if before < 255 { 0 } else { 75 };
                assert_eq!(bench.map(kind, index), number, "{before}");
                assert_eq!(bench.device.word(at), if before < 255 { before + 1 } else { before });
                bench.device.put_word(at, before);
                assert_eq!(bench.unmap(kind, index), if before == 0 { 22 } else { 0 }, "{before}");
                assert_eq!(bench.device.word(at), before.saturating_sub(1));
            }
        }
    }

    /// A word of a buffer that was never granted stands in the way like any other.
    #[test]
    fn any_of_the_32_words_refuses_buffers() {
        for (kind, stream, other) in STREAMS_AT {
            for (index, word) in (0..32).flat_map(|index| [1, 255, 1 << 32, 1 << 63].map(|word| (index, word))) {
                let mut bench = Bench::new(Device::zeroed());
                bench.device.put_word(map_word(stream, index), word);
                bench.changes_nothing(|bench| {
                    assert_eq!([0, 1, u32::MAX].map(|count| bench.request(kind, count)), [16; 3], "{word} at {index}");
                });
                assert_eq!(bench.request(other, 0), 0);
            }
        }
    }

    /// However many are granted, the first 32 can be mapped and no more.
    #[test]
    fn no_more_than_32_can_be_mapped() {
        for (kind, stream, _) in STREAMS_AT {
            for granted in [0, 1, 31, 32, 33, (1 << 32) + 1, u64::MAX] {
                let mut bench = Bench::new(Device::zeroed());
                bench.device.put_word(stream + at::GRANTED, granted);
                for index in [0, 1, 30, 31, 32, 33, 63, 64] {
                    let numbers = if u64::from(index) < granted.min(32) { [0, 0] } else { [22, 22] };
                    assert_eq!(bench.both(kind, index * slot(kind), slot(kind)), numbers, "{index} of {granted}");
                }
            }
        }
    }

    /// Slots by an image size that no sheet allows: none for 0, and 2^32 for those that no 32 bits can round up.
    #[test]
    fn slots_have_64_bits() {
        const SIZE: usize = at::SETUP + 20;
        for (size, slot) in [
            (0, 0),
            (1, 4096),
            (4096, 4096),
            (4097, 8192),
            ((1 << 31) + 1, (1 << 31) + 4096),
            (u32::MAX - 8191, (1 << 32) - 8192),
            (u32::MAX - 4095, (1 << 32) - 4096),
            (u32::MAX - 4094, 1 << 32),
            (u32::MAX, 1 << 32),
        ] {
            let mut bench = Bench::new(Device::zeroed());
            put(&mut bench.device.bytes, SIZE, size);
            for length in
                [0, 4095, 4096, 4097, 8192, 1 << 31, (1 << 31) + 4096, u32::MAX - 8191, u32::MAX - 4095, u32::MAX]
            {
                for (index, offset) in [(0, 0), (1, length)] {
                    let is_slot = slot > 0 && u64::from(length) == slot && u64::from(offset) == index * slot;
                    let numbers = if is_slot { [0, 0] } else { [22, 22] };
                    assert_eq!(bench.both(PICTURES, offset, length), numbers, "{length} at {offset}, image {size}");
                }
            }
        }
    }
}
