//! The library through its C interface.

use crate::packing::Packer;
use crate::random;
use crate::recorder::{Arrived, Maps, Past, Plane, Recorder, STREAMS};

/// The size of the C interface's device, in bytes. There is nothing between its fields or behind them.
pub const DEVICE_SIZE: usize = 6280;

/// Where the header has the fields, for tests that put numbers there which no call would.
pub mod at {
    /// The setup and the values of the controls: words of 32 bits.
    pub const SETUP: usize = 2688;
    pub const VALUES: usize = SETUP + 40;
    /// The streams: words of 64 bits.
    pub const VIDEO: usize = VALUES + 128;
    pub const CAPTIONS: usize = VIDEO + STREAM;
    pub const STREAMS: [usize; 2] = [VIDEO, CAPTIONS];
    /// The negotiated services: words of 16 bits.
    pub const SERVICES: usize = CAPTIONS + STREAM;
    pub const END: usize = SERVICES + 96;

    /// In a stream: first thirteen numbers.
    pub const LENGTH: usize = 0;
    pub const STREAMING: usize = 8;
    pub const ACCEPTED: usize = 24;
    pub const HANDED: usize = 32;
    pub const DAMAGED: usize = 40;
    pub const DROPPED: usize = 48;
    pub const DISCARDED: usize = 56;
    pub const GRANTED: usize = 64;
    pub const HEAD: usize = 72;
    pub const HOLDING: usize = 80;
    pub const LINED: usize = 88;
    pub const NEXT_NUMBER: usize = 96;
    /// Behind three spare words: six arrays of 32, the indices of the line first, the map counts last.
    pub const INDEX: usize = 128;
    pub const MAPS: usize = INDEX + 5 * 256;
    pub const STREAM: usize = MAPS + 256;
}

const _: () = assert!(at::END == DEVICE_SIZE);

/// The device as the C interface lays it out; its bytes are the library's own.
#[repr(C, align(8))]
#[derive(Clone)]
pub struct Device {
    pub bytes: [u8; DEVICE_SIZE],
}

extern "C" {
    fn tg_open(d: *mut Device, sheet: *const u8, sheet_length: usize, picture_length: u64, caption_length: u64) -> u32;
    fn tg_request(d: *mut Device, word: u32, argument: *mut u8, length: usize) -> u32;
    fn tg_arrival(
        d: *mut Device,
        kind: u32,
        memory: *mut u8,
        memory_length: usize,
        frame: *const u8,
        frame_length: usize,
        seconds: i32,
        microseconds: i32,
    ) -> Arrived;
    fn tg_verdict(d: *const Device, kind: u32) -> u32;
    fn tg_plane(d: *const Device, frame_length: usize, plane: u32) -> Plane;
    fn tg_map(d: *mut Device, kind: u32, offset: u32, length: u32) -> u32;
    fn tg_unmap(d: *mut Device, kind: u32, offset: u32, length: u32) -> u32;
    fn tg_vbi_pack(lines: *const u8, lines_length: usize, block: *mut u8, block_length: usize) -> u32;
    fn tg_vbi_unpack(block: *const u8, block_length: usize, lines: *mut u8, lines_length: usize) -> u32;
    fn tg_vbi_block_length(lines: usize) -> usize;
}

impl Device {
    pub const fn zeroed() -> Device {
        Device { bytes: [0; DEVICE_SIZE] }
    }

    /// A word of a stream.
    pub fn word(&self, at: usize) -> u64 {
        let mut word = [0; 8];
        word.copy_from_slice(&self.bytes[at..at + 8]);
        u64::from_le_bytes(word)
    }

    /// Puts a word into a stream, past all calls.
    pub fn put_word(&mut self, at: usize, word: u64) {
        self.bytes[at..at + 8].copy_from_slice(&word.to_le_bytes());
    }

    /// Where the stream of this type stands.
    pub fn stream(kind: u32) -> Option<usize> {
        let place = STREAMS.iter().position(|known| *known == kind)?;
        Some(at::STREAMS[place])
    }

    /// Puts a set of services for one line, past all calls.
    pub fn put_services(&mut self, at: usize, set: u16) {
        self.bytes[at..at + 2].copy_from_slice(&set.to_le_bytes());
    }
}

// In all calls: the references give valid pointers for the whole call, slices give their own lengths (an empty slice's
// pointer is not null), and what is lent does not overlap, since it is borrowed apart.
impl Recorder for Device {
    fn open(&mut self, sheet: &[u8], [picture_length, caption_length]: [u64; 2]) -> u32 {
        // SAFETY: see above.
        unsafe { tg_open(self, sheet.as_ptr(), sheet.len(), picture_length, caption_length) }
    }

    fn request(&mut self, word: u32, argument: &mut [u8]) -> u32 {
        // SAFETY: see above.
        unsafe { tg_request(self, word, argument.as_mut_ptr(), argument.len()) }
    }

    fn arrival(&mut self, kind: u32, memory: &mut [u8], frame: &[u8], seconds: i32, microseconds: i32) -> Arrived {
        let (lent, length) = (memory.as_mut_ptr(), memory.len());
        // SAFETY: see above.
        unsafe { tg_arrival(self, kind, lent, length, frame.as_ptr(), frame.len(), seconds, microseconds) }
    }

    fn verdict(&self, kind: u32) -> u32 {
        // SAFETY: see above.
        unsafe { tg_verdict(self, kind) }
    }

    fn plane(&self, frame_length: usize, plane: u32) -> Plane {
        // SAFETY: see above.
        unsafe { tg_plane(self, frame_length, plane) }
    }

    fn map(&mut self, kind: u32, offset: u32, length: u32) -> u32 {
        // SAFETY: see above.
        unsafe { tg_map(self, kind, offset, length) }
    }

    fn unmap(&mut self, kind: u32, offset: u32, length: u32) -> u32 {
        // SAFETY: see above.
        unsafe { tg_unmap(self, kind, offset, length) }
    }

    fn maps(&self, kind: u32) -> Option<Maps> {
        let stream = Device::stream(kind)?;
        Some(std::array::from_fn(|index| self.word(stream + at::MAPS + 8 * index)))
    }

    /// Each word goes on from what it holds, so that a device which miscounted before still does.
    fn age(&mut self, kind: u32, past: Past) {
        let Some(stream) = Device::stream(kind) else { return };
        let counts = [
            (at::ACCEPTED, past.accepted()),
            (at::HANDED, past.handed),
            (at::DAMAGED, past.damaged),
            (at::DROPPED, past.dropped),
        ];
        for (at, more) in counts {
            self.put_word(stream + at, self.word(stream + at).wrapping_add(more));
        }
        let number = self.word(stream + at::NEXT_NUMBER) as u32;
        self.put_word(stream + at::NEXT_NUMBER, number.wrapping_add(past.accepted() as u32).into());
    }

    /// What was accepted was handed over, damaged, dropped, discarded, or is held; and the next number is its count reduced.
    fn adds_up(&self) -> bool {
        at::STREAMS.into_iter().all(|stream| {
            let became = [at::HANDED, at::DAMAGED, at::DROPPED, at::DISCARDED, at::HOLDING];
            let sum = became.into_iter().fold(0, |sum: u64, at| sum.wrapping_add(self.word(stream + at)));
            let accepted = self.word(stream + at::ACCEPTED);
            sum == accepted && self.word(stream + at::NEXT_NUMBER) == accepted % (1 << 32)
        })
    }

    fn content(&self, into: &mut Vec<u8>) {
        into.clear();
        into.extend_from_slice(&self.bytes);
    }

    fn scramble(&mut self, seed: u64) {
        random::fill(seed, &mut self.bytes);
    }
}

/// The packing of caption lines, which needs no device.
pub struct Packing;

impl Packer for Packing {
    fn pack(&self, lines: &[u8], block: &mut [u8]) -> u32 {
        // SAFETY: see above.
        unsafe { tg_vbi_pack(lines.as_ptr(), lines.len(), block.as_mut_ptr(), block.len()) }
    }

    fn unpack(&self, block: &[u8], lines: &mut [u8]) -> u32 {
        // SAFETY: see above.
        unsafe { tg_vbi_unpack(block.as_ptr(), block.len(), lines.as_mut_ptr(), lines.len()) }
    }

    fn block_length(&self, lines: usize) -> usize {
        // SAFETY: nothing is lent.
        unsafe { tg_vbi_block_length(lines) }
    }
}
