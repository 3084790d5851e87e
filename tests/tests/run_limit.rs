//! The numbers of a run where they go back to 0, and the end of a run. Nobody can wait for 2^32 arrivals or for 2^63, so the
//! counts are put into the device, of the library at the places that its header names.

use tollgutter_tests::ask::done;
use tollgutter_tests::draft::Draft;
use tollgutter_tests::model;
use tollgutter_tests::model::bytes::word;
use tollgutter_tests::model::words::*;
use tollgutter_tests::recorder::*;
use tollgutter_tests::session::Frame;

/// How many numbers there are, and how many arrivals a run accepts.
const NUMBERS: u64 = 4_294_967_296;
const LIMIT: u64 = 9_223_372_036_854_775_807;

const BUFFERS: u32 = 5;
const FULL: Arrived = Arrived { answer: REFUSED, number: 75, buffer: 0 };

/// A device with a run of each stream, its memories, and a frame that each stream takes.
struct Bench<R> {
    device: R,
    memories: [Vec<u8>; 2],
    frames: [Vec<u8>; 2],
}

impl<R: Recorder> Bench<R> {
    /// All buffers of both streams wait.
    fn new(mut device: R) -> Bench<R> {
        let memories = [vec![0; 1 << 18], vec![0; 1 << 15]];
        assert_eq!(device.open(&Draft::bench().bytes(), memories.each_ref().map(|memory| memory.len() as u64)), 0);
        let format = done(&mut device, S_FMT, &[(0, PICTURES), (4, 160), (8, 120)]);
        done(&mut device, S_FMT, &[(0, CAPTIONS), (4, 0x1000)]);
        let frames = [vec![3; word(&format, 24) as usize], Frame::records(vec![[0x1000, 0, 21]], 3).bytes()];
        let mut bench = Bench { device, memories, frames };
        for kind in STREAMS {
            let granted = bench.done(REQBUFS, &[(0, BUFFERS), (4, kind), (8, 1)]);
            assert_eq!(word(&granted, 0), BUFFERS);
            bench.begin(kind);
        }
        bench
    }

    fn done(&mut self, request: u32, fields: &[(usize, u32)]) -> Vec<u8> {
        done(&mut self.device, request, fields)
    }

    /// A run begins, and all buffers wait.
    fn begin(&mut self, kind: u32) {
        (0..BUFFERS).for_each(|index| self.queue(kind, index));
        self.done(STREAMON, &[(0, kind)]);
    }

    fn queue(&mut self, kind: u32, index: u32) {
        self.done(QBUF, &[(0, index), (4, kind), (48, 1)]);
    }

    /// A whole frame arrives.
    fn arrive(&mut self, kind: u32) -> Arrived {
        let place = usize::from(kind == CAPTIONS);
        self.device.arrival(kind, &mut self.memories[place], &self.frames[place], 7, 8)
    }

    /// One that is not whole arrives.
    fn damaged(&mut self, kind: u32) -> Arrived {
        self.device.arrival(kind, &mut self.memories[usize::from(kind == CAPTIONS)], &[1], 0, -1)
    }

    /// A frame arrives, is stored with this number in this buffer, and can be looked at.
    fn stored(&mut self, kind: u32, number: u64, buffer: u32) {
        assert_eq!(self.arrive(kind), Arrived { answer: STORED, number: number as u32, buffer });
        let status = self.done(QUERYBUF, &[(0, buffer), (4, kind)]);
        assert_eq!((word(&status, 12), u64::from(word(&status, 44))), (4, number), "QUERYBUF");
    }

    /// A frame of this number is handed over.
    fn handed_over(&mut self, kind: u32, number: u64) {
        let answer = self.done(DQBUF, &[(4, kind), (48, 1)]);
        assert_eq!(u64::from(word(&answer, 44)), number, "DQBUF");
    }

    /// A run that was just begun is given these arrivals.
    fn age(&mut self, kind: u32, handed: u64, damaged: u64, dropped: u64) {
        self.device.age(kind, Past { handed, damaged, dropped });
    }

    /// The run ends with this verdict.
    fn ends(&mut self, kind: u32, verdict: u32) {
        assert_eq!(self.device.verdict(kind), RUNNING);
        self.done(STREAMOFF, &[(0, kind)]);
        assert_eq!(self.device.verdict(kind), verdict);
    }

    fn kept(&self) -> (Vec<u8>, [Vec<u8>; 2]) {
        let mut bytes = Vec::new();
        self.device.content(&mut bytes);
        (bytes, self.memories.clone())
    }
}

/// Five frames from two before an edge on, the first edge or a later one: stored first and handed over then. Nothing is refused,
/// and the film is complete. The other run, which is young, keeps its own numbers.
fn numbers_go_back<R: Recorder>(make: &impl Fn() -> R, kind: u32, other: u32, edge: u64) {
    let numbers = [4_294_967_294, 4_294_967_295, 0, 1, 2];
    let mut bench = Bench::new(make());
    bench.age(kind, edge - 2, 0, 0);
    for (buffer, number) in (0..BUFFERS).zip(numbers) {
        bench.stored(kind, number, buffer);
        bench.stored(other, buffer.into(), buffer);
    }
    numbers.into_iter().for_each(|number| bench.handed_over(kind, number));
    (0..BUFFERS).for_each(|number| bench.handed_over(other, number.into()));
    // Damaged and dropped ones take a number each.
    assert_eq!([bench.damaged(kind).answer, bench.arrive(kind).answer], [DAMAGED, DROPPED]);
    bench.queue(kind, 4);
    bench.stored(kind, 5, 4);
    bench.handed_over(kind, 5);
    bench.ends(kind, GAPS);
    bench.ends(other, COMPLETE);
}

/// An arrival that is not stored takes the last number, or the first one again.
fn lost_at_the_edge<R: Recorder>(make: &impl Fn() -> R, kind: u32, before: u64, next: u64) {
    let mut bench = Bench::new(make());
    bench.age(kind, before, 0, 0);
    assert_eq!(bench.damaged(kind), Arrived { answer: DAMAGED, number: 0, buffer: 0 });
    bench.stored(kind, next, 0);
    bench.handed_over(kind, next);
    bench.ends(kind, GAPS);
}

/// The last arrival of a run, and those that are refused after it.
fn limit<R: Recorder>(make: &impl Fn() -> R, kind: u32, other: u32) {
    let mut bench = Bench::new(make());
    bench.age(kind, LIMIT - 2, 0, 0);
    bench.stored(kind, 4_294_967_293, 0);
    bench.stored(kind, 4_294_967_294, 1);
    is_full(&mut bench, kind);
    // The other stream goes on.
    bench.stored(other, 0, 0);
    is_full(&mut bench, kind);
    bench.stored(other, 1, 1);
    // What was stored can still be handed over, and its buffer can come back: the run is at its limit all the same.
    bench.handed_over(kind, 4_294_967_293);
    bench.queue(kind, 0);
    is_full(&mut bench, kind);
    bench.handed_over(kind, 4_294_967_294);
    bench.ends(kind, COMPLETE);
    // A new run counts from 0.
    bench.begin(kind);
    bench.stored(kind, 0, 0);
    bench.stored(kind, 1, 1);
    bench.handed_over(other, 0);
    bench.handed_over(other, 1);
    bench.ends(other, COMPLETE);
    bench.ends(kind, BLANK);
}

/// The run takes nothing more: the limit comes before the damage, after the length of the memory, and changes nothing.
fn is_full<R: Recorder>(bench: &mut Bench<R>, kind: u32) {
    let before = bench.kept();
    assert_eq!([bench.arrive(kind), bench.arrive(kind), bench.damaged(kind)], [FULL; 3]);
    let short = bench.device.arrival(kind, &mut [], &bench.frames[0], 0, 0);
    assert_eq!(short, Arrived { number: 14, ..FULL });
    assert!(bench.kept() == before, "a refusal changed something");
    assert_eq!(bench.device.verdict(kind), RUNNING);
}

/// The last arrival may be a damaged one, or one that finds no buffer.
fn last_is_lost<R: Recorder>(make: &impl Fn() -> R, kind: u32) {
    let mut bench = Bench::new(make());
    bench.age(kind, LIMIT - 1, 0, 0);
    assert_eq!(bench.damaged(kind).answer, DAMAGED);
    is_full(&mut bench, kind);
    bench.ends(kind, GAPS);

    bench.begin(kind);
    bench.age(kind, LIMIT - 1 - u64::from(BUFFERS), 0, 0);
    for (buffer, before) in (0..BUFFERS).zip((1..=u64::from(BUFFERS)).rev()) {
        bench.stored(kind, 4_294_967_294 - before, buffer);
    }
    assert_eq!(bench.arrive(kind).answer, DROPPED);
    is_full(&mut bench, kind);
    bench.ends(kind, GAPS);
}

/// What became of all arrivals of a run, handed over, damaged and dropped, and the verdict. Reduced to 32 bits, the counts of many
/// would say something else.
const FILMS: [(u64, u64, u64, u32); 18] = [
    (NUMBERS + 5, 0, 0, COMPLETE),
    (5, 0, NUMBERS, GAPS),
    (5, NUMBERS, 0, GAPS),
    (5, NUMBERS / 2, NUMBERS / 2, GAPS),
    (NUMBERS + 5, 3 * NUMBERS, 0, GAPS),
    (NUMBERS + 4, 1, 0, GAPS),
    (NUMBERS + 4, 0, 1, GAPS),
    (NUMBERS - 1, 0, 1, GAPS),
    (NUMBERS - 1, 0, 0, COMPLETE),
    (NUMBERS, 0, 0, COMPLETE),
    (NUMBERS, 0, 5, GAPS),
    (NUMBERS, NUMBERS, 0, GAPS),
    (0, 0, NUMBERS, BLANK),
    (0, NUMBERS, 5, BLANK),
    (LIMIT, 0, 0, COMPLETE),
    (LIMIT - 1, 0, 1, GAPS),
    (LIMIT - NUMBERS, NUMBERS, 0, GAPS),
    (LIMIT % NUMBERS, 0, LIMIT - LIMIT % NUMBERS, GAPS),
];

fn films<R: Recorder>(make: &impl Fn() -> R, kind: u32, other: u32) {
    let mut bench = Bench::new(make());
    for (handed, damaged, dropped, verdict) in FILMS {
        bench.age(kind, handed, damaged, dropped);
        bench.ends(kind, verdict);
        assert_eq!(bench.device.verdict(other), RUNNING);
        bench.done(STREAMON, &[(0, kind)]);
    }
    // One that is stored and thrown away by the stop is lost, too; one that is handed over is not.
    for (is_handed_over, verdict) in [(false, GAPS), (true, COMPLETE)] {
        bench.done(STREAMOFF, &[(0, kind)]);
        bench.begin(kind);
        bench.age(kind, NUMBERS + 4, 0, 0);
        bench.stored(kind, 4, 0);
        if is_handed_over {
            bench.handed_over(kind, 4);
        }
        bench.ends(kind, verdict);
    }
}

/// All of it, for each stream.
fn old_runs<R: Recorder>(make: impl Fn() -> R) {
    for (kind, other) in [(PICTURES, CAPTIONS), (CAPTIONS, PICTURES)] {
        for edge in [NUMBERS, 2 * NUMBERS, 1 << 40, LIMIT + 1 - NUMBERS] {
            numbers_go_back(&make, kind, other, edge);
            lost_at_the_edge(&make, kind, edge - 1, 0);
            lost_at_the_edge(&make, kind, edge, 1);
        }
        limit(&make, kind, other);
        last_is_lost(&make, kind);
        films(&make, kind, other);
    }
}

#[test]
fn the_model_outlasts_its_numbers() {
    old_runs(model::Device::closed);
}

#[cfg(feature = "library")]
mod library {
    use super::*;
    use tollgutter_tests::ffi::{at, Device};

    #[test]
    fn the_library_outlasts_its_numbers() {
        old_runs(Device::zeroed);
    }

    /// The words that the header names: how many were accepted, and the next number.
    fn words(bench: &Bench<Device>, stream: usize) -> [u64; 2] {
        [at::ACCEPTED, at::NEXT_NUMBER].map(|at| bench.device.word(stream + at))
    }

    /// The words of one stream at both edges; those of the other stay.
    #[test]
    fn the_words_are_those_of_the_header() {
        for (kind, stream, other) in [(PICTURES, at::VIDEO, at::CAPTIONS), (CAPTIONS, at::CAPTIONS, at::VIDEO)] {
            let mut bench = Bench::new(Device::zeroed());
            assert_eq!(words(&bench, stream), [0, 0]);
            bench.arrive(kind);
            bench.damaged(kind);
            assert_eq!(words(&bench, stream), [2, 2]);
            for (count, number) in
                [(NUMBERS - 1, NUMBERS - 1), (2 * NUMBERS - 1, NUMBERS - 1), (LIMIT - 1, NUMBERS - 2)]
            {
                bench.device.put_word(stream + at::ACCEPTED, count);
                bench.device.put_word(stream + at::NEXT_NUMBER, number);
                assert_eq!(bench.arrive(kind).number, number as u32);
                assert_eq!(words(&bench, stream), [count + 1, (number + 1) % NUMBERS]);
            }
            // At the limit, and behind the end of the run, both stay. They are set back when the next run begins, and at opening.
            assert_eq!(bench.arrive(kind), FULL);
            bench.done(STREAMOFF, &[(0, kind)]);
            assert_eq!(words(&bench, stream), [LIMIT, NUMBERS - 1]);
            bench.done(STREAMON, &[(0, kind)]);
            assert_eq!(words(&bench, stream), [0, 0]);
            bench.damaged(kind);
            assert_eq!((words(&bench, stream), words(&bench, other)), ([1, 1], [0, 0]));
            assert_eq!(bench.device.open(&Draft::bench().bytes(), [1 << 18, 1 << 15]), 0);
            assert_eq!(words(&bench, stream), [0, 0]);
        }
    }
}
