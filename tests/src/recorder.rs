//! What every device under comparison can do, and the answers it gives.

use crate::model;

/// The two streams, by the buffer types that name them: video capture, and sliced VBI capture.
pub const PICTURES: u32 = 1;
pub const CAPTIONS: u32 = 6;
pub const STREAMS: [u32; 2] = [PICTURES, CAPTIONS];

/// The answers to an arrival.
pub const REFUSED: u32 = 0;
pub const IGNORED: u32 = 1;
pub const DAMAGED: u32 = 2;
pub const DROPPED: u32 = 3;
pub const STORED: u32 = 4;

/// The verdicts on the film of the last run.
pub const RUNNING: u32 = 0;
pub const BLANK: u32 = 1;
pub const GAPS: u32 = 2;
pub const COMPLETE: u32 = 3;

/// The answer to an arrival. `number` is the number given back if refused and the frame's number if stored.
#[repr(C)]
#[derive(Clone, Copy, Debug, PartialEq, Eq)]
pub struct Arrived {
    pub answer: u32,
    pub number: u32,
    pub buffer: u32,
}

/// Arrivals that a run is given past all calls, by what became of them.
#[derive(Clone, Copy, Debug, Default, PartialEq, Eq)]
pub struct Past {
    pub handed: u64,
    pub damaged: u64,
    pub dropped: u64,
}

impl Past {
    /// All of them were accepted.
    pub fn accepted(&self) -> u64 {
        self.handed + self.damaged + self.dropped
    }
}

/// How often each buffer of a stream is mapped, in the order of the indices.
pub type Maps = [u64; 32];

/// Where a plane lies in a frame, or a refusal: 22, 0, 0.
#[repr(C)]
#[derive(Clone, Copy, Debug, PartialEq, Eq)]
pub struct Plane {
    pub number: u32,
    pub start: usize,
    pub length: usize,
}

/// A capture device that can be opened again and again.
pub trait Recorder {
    /// A new device of this sheet takes the place of the old one. The lengths are those of the picture memory and of the
    /// caption memory.
    fn open(&mut self, sheet: &[u8], lengths: [u64; 2]) -> u32;
    fn request(&mut self, word: u32, argument: &mut [u8]) -> u32;
    fn arrival(&mut self, kind: u32, memory: &mut [u8], frame: &[u8], seconds: i32, microseconds: i32) -> Arrived;
    fn verdict(&self, kind: u32) -> u32;
    fn plane(&self, frame_length: usize, plane: u32) -> Plane;
    /// One map more, or one fewer, of the buffer with this offset and length in the memory of its stream.
    fn map(&mut self, kind: u32, offset: u32, length: u32) -> u32;
    fn unmap(&mut self, kind: u32, offset: u32, length: u32) -> u32;

    /// Adds arrivals to the run that is on in a stream, past all calls, since nobody can wait for so many.
    fn age(&mut self, kind: u32, past: Past);

    /// How many arrivals were accepted by the run that is on in a stream. Only the expecting side is asked.
    fn accepted(&self, _kind: u32) -> Option<u64> {
        None
    }

    /// The counts of each run agree with each other and with the next number, as far as they can be seen.
    fn adds_up(&self) -> bool {
        true
    }

    /// The maps of a stream, if they can be seen.
    fn maps(&self, _kind: u32) -> Option<Maps> {
        None
    }

    /// Fills what the device is made of with bytes of this seed, before an opening; 0 stands for zero bytes.
    fn scramble(&mut self, _seed: u64) {}

    /// A copy of all that the device keeps, if that can be seen: a refused call must leave it as it was.
    fn content(&self, _into: &mut Vec<u8>) {}

    /// The image size of the present format, for probes of the planes. Only the expecting side is asked.
    fn image_size(&self) -> usize {
        0
    }
}

impl Recorder for model::Device {
    fn open(&mut self, sheet: &[u8], lengths: [u64; 2]) -> u32 {
        let (number, device) = model::open(sheet, lengths);
        *self = device;
        number
    }

    fn request(&mut self, word: u32, argument: &mut [u8]) -> u32 {
        model::Device::request(self, word, argument)
    }

    fn arrival(&mut self, kind: u32, memory: &mut [u8], frame: &[u8], seconds: i32, microseconds: i32) -> Arrived {
        model::Device::arrival(self, kind, memory, frame, seconds, microseconds)
    }

    fn verdict(&self, kind: u32) -> u32 {
        model::Device::verdict(self, kind)
    }

    fn plane(&self, frame_length: usize, plane: u32) -> Plane {
        model::Device::plane(self, frame_length, plane)
    }

    fn map(&mut self, kind: u32, offset: u32, length: u32) -> u32 {
        model::Device::map(self, kind, offset, length)
    }

    fn unmap(&mut self, kind: u32, offset: u32, length: u32) -> u32 {
        model::Device::unmap(self, kind, offset, length)
    }

    /// Of a closed device none.
    fn maps(&self, kind: u32) -> Option<Maps> {
        let stream = self.opened().and_then(|opened| opened.stream(kind));
        Some(stream.map_or([0; 32], |stream| stream.maps.map(u64::from)))
    }

    fn age(&mut self, kind: u32, past: Past) {
        if let Some(stream) = self.opened_mut().and_then(|opened| opened.stream_mut(kind)) {
            stream.run.accepted += past.accepted();
            stream.run.handed_over += past.handed;
        }
    }

    fn accepted(&self, kind: u32) -> Option<u64> {
        let stream = self.opened().and_then(|opened| opened.stream(kind))?;
        stream.streaming.then_some(stream.run.accepted)
    }

    fn scramble(&mut self, _seed: u64) {
        *self = model::Device::closed();
    }

    fn image_size(&self) -> usize {
        self.opened().map_or(0, |open| open.picture.image_size as usize)
    }
}
