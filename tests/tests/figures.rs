//! The bench figures of the requirements, on the model and, if it is linked, on the library.

use tollgutter_tests::ask::{ask, done};
use tollgutter_tests::draft::Draft;
use tollgutter_tests::model::bytes::{put, put_signed, signed, word};
use tollgutter_tests::model::format::{YU12, YUYV};
use tollgutter_tests::model::words::*;
use tollgutter_tests::model::Device;
use tollgutter_tests::recorder::*;

const MEMORY: usize = 1_048_576;

/// A device on the bench, and its picture memory.
struct Bench<R> {
    device: R,
    memory: Vec<u8>,
}

impl<R: Recorder> Bench<R> {
    fn new(device: R) -> Bench<R> {
        Bench::of(device, &Draft::bench())
    }

    fn of(mut device: R, sheet: &Draft) -> Bench<R> {
        assert_eq!(device.open(&sheet.bytes(), [MEMORY as u64, 0]), 0);
        Bench { device, memory: vec![0; MEMORY] }
    }

    fn request(&mut self, request: u32, fields: &[(usize, u32)]) -> (u32, Vec<u8>) {
        ask(&mut self.device, request, fields)
    }

    fn done(&mut self, request: u32, fields: &[(usize, u32)]) -> Vec<u8> {
        done(&mut self.device, request, fields)
    }

    fn format(&mut self, code: u32, width: u32, height: u32) -> Vec<u8> {
        self.done(S_FMT, &[(0, 1), (4, width), (8, height), (12, code)])
    }

    fn buffers(&mut self, count: u32) -> u32 {
        word(&self.done(REQBUFS, &[(0, count), (4, 1), (8, 1)]), 0)
    }

    fn queue(&mut self, index: u32) {
        self.done(QBUF, &[(0, index), (4, 1), (48, 1)]);
    }

    fn dequeue(&mut self) -> Vec<u8> {
        self.done(DQBUF, &[(4, 1), (48, 1)])
    }

    fn crop(&mut self, left: i32, width: i32) -> (i32, i32) {
        let mut argument = vec![0; 20];
        put(&mut argument, 0, 1);
        put_signed(&mut argument, 4, left);
        put_signed(&mut argument, 12, width);
        put_signed(&mut argument, 16, 10);
        assert_eq!(self.device.request(S_CROP, &mut argument), 0);
        let kept = self.done(G_CROP, &[(0, 1)]);
        (signed(&kept, 4), signed(&kept, 12))
    }

    /// The top that is kept of a crop 640 wide and 300 high.
    fn top(&mut self, top: i32) -> i32 {
        self.done(S_CROP, &[(0, 1), (4, -8i32 as u32), (8, top as u32), (12, 640), (16, 300)]);
        signed(&self.done(G_CROP, &[(0, 1)]), 8)
    }

    fn arrive(&mut self, length: usize, fill: u8) -> Arrived {
        self.device.arrival(PICTURES, &mut self.memory, &vec![fill; length], 7, 8)
    }
}

fn figures<R: Recorder>(make: impl Fn() -> R) {
    sizes(Bench::new(make()));
    packed(Bench::new(make()));
    planar(Bench::new(make()));
    crops(Bench::new(make()));
    let odd = Draft { bounds: [-8, -7, 640, 400], default: [-8, -6, 640, 399], ..Draft::bench() };
    odd_tops(Bench::of(make(), &odd));
    contrast(Bench::new(make()));
    verdicts(Bench::new(make()));
    numbers(Bench::new(make()));
    NUMBERS.iter().for_each(|(count, arrived)| numbers_of_an_old_run(Bench::new(make()), *count, *arrived));
}

/// Sizes asked for and answered: between two, half way and one more at the first two, in the middle and at the last two, and
/// around both ends.
const WIDTHS: [(u32, u32); 13] = [
    (300, 304),
    (168, 160),
    (169, 176),
    (296, 288),
    (297, 304),
    (632, 624),
    (633, 640),
    (0, 160),
    (159, 160),
    (160, 160),
    (640, 640),
    (641, 640),
    (u32::MAX, 640),
];
const HEIGHTS: [(u32, u32); 4] = [(121, 120), (479, 478), (0, 120), (u32::MAX, 480)];

fn sizes<R: Recorder>(mut bench: Bench<R>) {
    for request in [TRY_FMT, S_FMT] {
        for (wanted, given) in WIDTHS {
            let answer = bench.done(request, &[(0, 1), (4, wanted), (8, 224), (12, YUYV)]);
            assert_eq!(word(&answer, 4), given);
        }
        for (wanted, given) in HEIGHTS {
            let answer = bench.done(request, &[(0, 1), (4, 304), (8, wanted), (12, YUYV)]);
            assert_eq!(word(&answer, 8), given);
        }
    }
}

fn packed<R: Recorder>(mut bench: Bench<R>) {
    let answer = bench.format(YUYV, 304, 224);
    assert_eq!((word(&answer, 20), word(&answer, 24)), (640, 143_360));
    assert_eq!(bench.buffers(10), 7);
    let status = bench.done(QUERYBUF, &[(0, 6), (4, 1)]);
    assert_eq!((word(&status, 52), word(&status, 56)), (6 * 143_360, 143_360));
    assert_eq!(bench.device.plane(143_360, 0), Plane { number: 0, start: 0, length: 143_360 });
    assert_eq!(bench.device.plane(143_360, 1).number, 22);
}

fn planar<R: Recorder>(mut bench: Bench<R>) {
    let answer = bench.format(YU12, 304, 224);
    assert_eq!((word(&answer, 20), word(&answer, 24)), (320, 107_520));
    for (plane, start, length) in [(0, 0, 71_680), (1, 71_680, 17_920), (2, 89_600, 17_920)] {
        assert_eq!(bench.device.plane(107_520, plane), Plane { number: 0, start, length });
    }
    assert_eq!(bench.buffers(10), 9);
    let status = bench.done(QUERYBUF, &[(0, 1), (4, 1)]);
    assert_eq!(word(&status, 52), 110_592);
}

fn crops<R: Recorder>(mut bench: Bench<R>) {
    assert_eq!(bench.crop(100, 608), (24, 608));
    assert_eq!(bench.crop(i32::MIN, 608), (-8, 608));
    assert_eq!(bench.crop(-5, 608), (-5, 608));
    assert_eq!(bench.crop(0, 0).1, 1);
    assert_eq!([0, 1, 31].map(|top| bench.top(top)), [0, 0, 30]);
}

/// Bounds from top -7, and a default that begins a line below it: CROPCAP tells it, and after opening G_CROP tells it rounded.
fn odd_tops<R: Recorder>(mut bench: Bench<R>) {
    let limits = bench.done(CROPCAP, &[(0, 1)]);
    assert_eq!([8, 24, 32].map(|at| signed(&limits, at)), [-7, -6, 399]);
    let crop = bench.done(G_CROP, &[(0, 1)]);
    assert_eq!([4, 8, 12, 16].map(|at| signed(&crop, at)), [-8, -7, 640, 399]);
    assert_eq!([-7, -6, -5, 24, -32_768].map(|top| bench.top(top)), [-7, -7, -5, 23, -7]);
}

fn contrast<R: Recorder>(mut bench: Bench<R>) {
    for (wanted, given) in [(-8, -10), (0, -2)] {
        let answer = bench.done(S_CTRL, &[(0, 0x0098_0901), (4, wanted as u32)]);
        assert_eq!(signed(&answer, 4), given);
    }
    assert_eq!(bench.request(S_CTRL, &[(0, 0x0098_0901), (4, 11)]).0, 34);
}

fn verdicts<R: Recorder>(mut bench: Bench<R>) {
    let size = word(&bench.format(YUYV, 304, 224), 24) as usize;
    bench.buffers(3);
    assert_eq!(bench.device.verdict(PICTURES), BLANK);

    bench.done(STREAMON, &[(0, 1)]);
    assert_eq!(bench.device.verdict(PICTURES), RUNNING);
    bench.done(STREAMOFF, &[(0, 1)]);
    assert_eq!(bench.device.verdict(PICTURES), BLANK);

    bench.queue(1);
    bench.done(STREAMON, &[(0, 1)]);
    assert_eq!(bench.arrive(size, 9), Arrived { answer: STORED, number: 0, buffer: 1 });
    let handed = bench.dequeue();
    assert_eq!((word(&handed, 0), word(&handed, 8), signed(&handed, 20), signed(&handed, 24)), (1, 143_360, 7, 8));
    let from = word(&handed, 52) as usize;
    assert!(bench.memory[from..from + size].iter().all(|byte| *byte == 9));
    bench.done(STREAMOFF, &[(0, 1)]);
    assert_eq!(bench.device.verdict(PICTURES), COMPLETE);

    bench.queue(1);
    bench.done(STREAMON, &[(0, 1)]);
    assert_eq!(bench.arrive(size, 5).answer, STORED);
    bench.done(STREAMOFF, &[(0, 1)]);
    assert_eq!(bench.device.verdict(PICTURES), BLANK);
}

fn numbers<R: Recorder>(mut bench: Bench<R>) {
    let size = word(&bench.format(YUYV, 304, 224), 24) as usize;
    bench.buffers(3);
    bench.queue(2);
    assert_eq!(bench.arrive(size, 1).answer, IGNORED);
    bench.done(STREAMON, &[(0, 1)]);
    assert_eq!(bench.arrive(size - 1, 1), Arrived { answer: DAMAGED, number: 0, buffer: 0 });
    assert_eq!(bench.arrive(size, 1), Arrived { answer: STORED, number: 1, buffer: 2 });
    assert_eq!(bench.arrive(size, 1).answer, DROPPED);
    assert_eq!(word(&bench.dequeue(), 44), 1);
    bench.done(STREAMOFF, &[(0, 1)]);
    assert_eq!(bench.device.verdict(PICTURES), GAPS);
}

/// Counts of accepted arrivals, and what is answered to the next one.
const NUMBERS: [(u64, Arrived); 6] = [
    (4_294_967_294, Arrived { answer: STORED, number: 4_294_967_294, buffer: 2 }),
    (4_294_967_295, Arrived { answer: STORED, number: 4_294_967_295, buffer: 2 }),
    (4_294_967_296, Arrived { answer: STORED, number: 0, buffer: 2 }),
    (4_294_967_297, Arrived { answer: STORED, number: 1, buffer: 2 }),
    (9_223_372_036_854_775_806, Arrived { answer: STORED, number: 4_294_967_294, buffer: 2 }),
    (9_223_372_036_854_775_807, Arrived { answer: REFUSED, number: 75, buffer: 0 }),
];

fn numbers_of_an_old_run<R: Recorder>(mut bench: Bench<R>, count: u64, arrived: Arrived) {
    let size = word(&bench.format(YUYV, 304, 224), 24) as usize;
    bench.buffers(3);
    bench.queue(2);
    bench.done(STREAMON, &[(0, 1)]);
    bench.device.age(PICTURES, Past { handed: count, ..Past::default() });
    assert_eq!(bench.arrive(size, 1), arrived, "{count} accepted before");
    if arrived.answer == STORED {
        assert_eq!(word(&bench.done(QUERYBUF, &[(0, 2), (4, 1)]), 44), arrived.number);
        assert_eq!(word(&bench.dequeue(), 44), arrived.number);
    }
    bench.done(STREAMOFF, &[(0, 1)]);
    assert_eq!(bench.device.verdict(PICTURES), COMPLETE);
}

#[test]
fn the_model_gives_the_bench_figures() {
    figures(Device::closed);
}

#[cfg(feature = "library")]
#[test]
fn the_library_gives_the_bench_figures() {
    figures(tollgutter_tests::ffi::Device::zeroed);
}
