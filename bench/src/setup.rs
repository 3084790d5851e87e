//! Devices as the measurements need them.

use tollgutter_tests::draft::Draft;
use tollgutter_tests::generate::sheets;
use tollgutter_tests::model::format::{GREY, YUYV};
use tollgutter_tests::model::services::OFFERED;
use tollgutter_tests::model::words::{QBUF, REQBUFS, STREAMON, S_FMT};
use tollgutter_tests::random::Random;
use tollgutter_tests::recorder::{Recorder, CAPTIONS, PICTURES, STORED};
use tollgutter_tests::session::Frame;

/// A device that begins a line of the cache, so that where the allocator puts it makes no difference.
#[repr(align(64))]
pub struct Aligned<R>(pub R);

/// Room for 32 buffers of the least size, of each stream.
pub const MEMORY: usize = 32 * 4096;

/// Sends a request that has to be answered with 0.
pub fn done<R: Recorder>(device: &mut R, word: u32, fields: &[(usize, u32)]) {
    tollgutter_tests::ask::done(device, word, fields);
}

/// The bench sheet of the requirements.
pub fn bench_sheet() -> Vec<u8> {
    Draft::bench().bytes()
}

/// How many sizes a sheet allows.
#[derive(Clone, Copy)]
pub enum Sizes {
    /// Those of the bench, and some smaller ones.
    Usual,
    /// A single one.
    One,
    /// As many as a sheet can have: 4,096 widths and as many heights.
    Most,
}

/// The bench sheet with smaller least sizes, so that buffers are filled fast and the cache stays as it is.
fn small_sheet(sizes: Sizes) -> Vec<u8> {
    let (width, height) = match sizes {
        Sizes::Usual => ([16, 640, 16], [2, 480, 2]),
        Sizes::One => ([16, 16, 2], [2, 2, 2]),
        Sizes::Most => ([2, 8192, 2], [2, 8192, 2]),
    };
    Draft { width, height, ..Draft::bench() }.bytes()
}

/// The smallest pictures that a sheet can have.
fn smallest_sheet() -> Vec<u8> {
    let formats = vec![(GREY, [0; 32])];
    Draft { formats, width: [2, 640, 2], height: [2, 480, 2], alignment: 2, ..Draft::bench() }.bytes()
}

/// The sheet of nine formats and 32 controls.
pub fn largest_sheet() -> Vec<u8> {
    let mut random = Random::new(1);
    loop {
        let sheet = sheets::limits(&mut random).bytes();
        if sheet.len() == 2684 {
            return sheet;
        }
    }
}

/// Frames of `kind` that a device after `small` takes: two lines of 64 bytes, or the load line of both fields.
pub fn small_frame(kind: u32) -> Vec<u8> {
    match kind {
        PICTURES => vec![7; 128],
        _ => Frame::records(vec![[LOAD, 0, 21], [LOAD, 1, 21]], 7).bytes(),
    }
}

/// The service that has the load cell reading.
const LOAD: u32 = 0x1000;

/// A caption frame with a record for every line that is offered.
pub fn all_lines() -> Vec<u8> {
    let carrying = OFFERED.sets().enumerate().filter(|(_, set)| *set != 0);
    let heads =
        carrying.map(|(place, set)| [u32::from(set & set.wrapping_neg()), place as u32 / 24, place as u32 % 24]);
    Frame::records(heads.collect(), 7).bytes()
}

/// Opens the device for small frames and grants so many buffers to the stream that `kind` names.
pub fn small<R: Recorder>(device: &mut R, sizes: Sizes, kind: u32, buffers: u32) {
    assert_eq!(device.open(&small_sheet(sizes), [MEMORY as u64; 2]), 0);
    done(device, S_FMT, &[(0, PICTURES), (4, 16), (8, 2), (12, YUYV)]);
    done(device, S_FMT, &[(0, CAPTIONS), (4, LOAD)]);
    grant(device, kind, buffers);
}

/// The smallest frame of all: 2 by 2 pixels, a byte each.
pub const SMALLEST_FRAME: [u8; 4] = [7; 4];

/// Opens the device for the smallest frames and for all caption lines, and grants each stream so many buffers.
pub fn smallest<R: Recorder>(device: &mut R, buffers: u32) {
    assert_eq!(device.open(&smallest_sheet(), [MEMORY as u64; 2]), 0);
    done(device, S_FMT, &[(0, PICTURES), (4, 2), (8, 2), (12, GREY)]);
    done(device, S_FMT, &[(0, CAPTIONS), (4, 0x5401)]);
    grant(device, PICTURES, buffers);
    grant(device, CAPTIONS, buffers);
}

fn grant<R: Recorder>(device: &mut R, kind: u32, buffers: u32) {
    if buffers > 0 {
        done(device, REQBUFS, &[(0, buffers), (4, kind), (8, 1)]);
    }
}

/// Hands in all buffers of a stream, the first one first.
pub fn queue<R: Recorder>(device: &mut R, kind: u32, buffers: u32) {
    for index in 0..buffers {
        done(device, QBUF, &[(0, index), (4, kind), (48, 1)]);
    }
}

/// Starts a run and lets a small frame arrive for each buffer.
pub fn fill<R: Recorder>(device: &mut R, kind: u32, buffers: u32, memory: &mut [u8]) {
    done(device, STREAMON, &[(0, kind)]);
    let frame = small_frame(kind);
    for _ in 0..buffers {
        assert_eq!(device.arrival(kind, memory, &frame, 3, 4).answer, STORED);
    }
}
