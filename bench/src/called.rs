//! How the two sides are called: as a program calls a library, by a call that stays a call.

use tollgutter_tests::packing::{Model, Packer};
use tollgutter_tests::recorder::{Arrived, Recorder};
use tollgutter_tests::{ffi, model};

/// A device and its five calls that are measured.
pub trait Called: Recorder {
    fn call_open(&mut self, sheet: &[u8], lengths: [u64; 2]) -> u32;
    fn call_request(&mut self, word: u32, argument: &mut [u8]) -> u32;
    fn call_arrival(&mut self, kind: u32, memory: &mut [u8], frame: &[u8], seconds: i32, microseconds: i32) -> Arrived;
    fn call_map(&mut self, kind: u32, offset: u32, length: u32) -> u32;
    fn call_unmap(&mut self, kind: u32, offset: u32, length: u32) -> u32;
}

// The library comes as an archive, so that its functions are called in any case.
impl Called for ffi::Device {
    #[inline(always)]
    fn call_open(&mut self, sheet: &[u8], lengths: [u64; 2]) -> u32 {
        self.open(sheet, lengths)
    }

    #[inline(always)]
    fn call_request(&mut self, word: u32, argument: &mut [u8]) -> u32 {
        self.request(word, argument)
    }

    #[inline(always)]
    fn call_arrival(&mut self, kind: u32, memory: &mut [u8], frame: &[u8], seconds: i32, microseconds: i32) -> Arrived {
        self.arrival(kind, memory, frame, seconds, microseconds)
    }

    #[inline(always)]
    fn call_map(&mut self, kind: u32, offset: u32, length: u32) -> u32 {
        self.map(kind, offset, length)
    }

    #[inline(always)]
    fn call_unmap(&mut self, kind: u32, offset: u32, length: u32) -> u32 {
        self.unmap(kind, offset, length)
    }
}

// Inlined into the loop of a batch, the model would be the model for one word only.
impl Called for model::Device {
    #[inline(always)]
    fn call_open(&mut self, sheet: &[u8], lengths: [u64; 2]) -> u32 {
        rust_open(self, sheet, lengths)
    }

    #[inline(always)]
    fn call_request(&mut self, word: u32, argument: &mut [u8]) -> u32 {
        rust_request(self, word, argument)
    }

    #[inline(always)]
    fn call_arrival(&mut self, kind: u32, memory: &mut [u8], frame: &[u8], seconds: i32, microseconds: i32) -> Arrived {
        rust_arrival(self, kind, memory, frame, seconds, microseconds)
    }

    #[inline(always)]
    fn call_map(&mut self, kind: u32, offset: u32, length: u32) -> u32 {
        rust_map(self, kind, offset, length)
    }

    #[inline(always)]
    fn call_unmap(&mut self, kind: u32, offset: u32, length: u32) -> u32 {
        rust_unmap(self, kind, offset, length)
    }
}

#[inline(never)]
fn rust_open(device: &mut model::Device, sheet: &[u8], lengths: [u64; 2]) -> u32 {
    Recorder::open(device, sheet, lengths)
}

#[inline(never)]
fn rust_request(device: &mut model::Device, word: u32, argument: &mut [u8]) -> u32 {
    device.request(word, argument)
}

#[inline(never)]
fn rust_arrival(
    device: &mut model::Device,
    kind: u32,
    memory: &mut [u8],
    frame: &[u8],
    seconds: i32,
    microseconds: i32,
) -> Arrived {
    device.arrival(kind, memory, frame, seconds, microseconds)
}

#[inline(never)]
fn rust_map(device: &mut model::Device, kind: u32, offset: u32, length: u32) -> u32 {
    device.map(kind, offset, length)
}

#[inline(never)]
fn rust_unmap(device: &mut model::Device, kind: u32, offset: u32, length: u32) -> u32 {
    device.unmap(kind, offset, length)
}

/// A packer and its two calls that are measured.
pub trait CalledPacker: Packer {
    fn call_pack(&self, lines: &[u8], block: &mut [u8]) -> u32;
    fn call_unpack(&self, block: &[u8], lines: &mut [u8]) -> u32;
}

impl CalledPacker for ffi::Packing {
    #[inline(always)]
    fn call_pack(&self, lines: &[u8], block: &mut [u8]) -> u32 {
        self.pack(lines, block)
    }

    #[inline(always)]
    fn call_unpack(&self, block: &[u8], lines: &mut [u8]) -> u32 {
        self.unpack(block, lines)
    }
}

impl CalledPacker for Model {
    #[inline(always)]
    fn call_pack(&self, lines: &[u8], block: &mut [u8]) -> u32 {
        rust_pack(lines, block)
    }

    #[inline(always)]
    fn call_unpack(&self, block: &[u8], lines: &mut [u8]) -> u32 {
        rust_unpack(block, lines)
    }
}

#[inline(never)]
fn rust_pack(lines: &[u8], block: &mut [u8]) -> u32 {
    Model.pack(lines, block)
}

#[inline(never)]
fn rust_unpack(block: &[u8], lines: &mut [u8]) -> u32 {
    Model.unpack(block, lines)
}
