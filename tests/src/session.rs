//! A session: what a device is made to do, step by step.

use crate::model::services::RECORD;
use crate::random;
use crate::recorder::{Past, Recorder, STREAMS};

/// Longer memories are not made: such a device is opened, but lent an empty memory.
pub const LONGEST_MADE: u64 = 4 << 20;

#[derive(Clone)]
pub struct Session {
    /// The seed that made this session.
    pub seed: u64,
    /// The seed of the bytes in the device before the first opening; 0 for zero bytes.
    pub before: u64,
    pub steps: Vec<Step>,
}

/// A call, one call many times over, or a run that grows old without one. The lengths at an opening are those of the
/// picture memory and of the caption memory.
#[derive(Clone)]
pub enum Step {
    Open { sheet: Vec<u8>, lengths: [u64; 2] },
    Request { word: u32, argument: Vec<u8> },
    Arrival(Arrival),
    Plane { frame_length: usize, plane: u32 },
    Map(Mapping),
    Unmap(Mapping),
    Age(Age),
}

impl Step {
    /// How many calls it makes.
    pub fn calls(&self) -> u64 {
        match self {
            Step::Age(_) => 0,
            Step::Map(mapping) | Step::Unmap(mapping) => mapping.times.into(),
            _ => 1,
        }
    }
}

/// What is mapped or unmapped, so many times over: one step, so that a session can come to the limit and still be short.
#[derive(Clone, Copy, PartialEq)]
pub struct Mapping {
    /// The buffer type that names the stream.
    pub kind: u32,
    pub offset: u32,
    pub length: u32,
    pub times: u32,
}

/// The two calls about maps.
#[derive(Clone, Copy, Debug, PartialEq)]
pub enum Change {
    Map,
    Unmap,
}

impl Mapping {
    /// One of its calls: the number given back.
    pub fn once<R: Recorder>(&self, change: Change, device: &mut R) -> u32 {
        match change {
            Change::Map => device.map(self.kind, self.offset, self.length),
            Change::Unmap => device.unmap(self.kind, self.offset, self.length),
        }
    }
}

/// The run of a stream is made so old that it has accepted this many arrivals. Of those that it did not have before, so many
/// were damaged and so many dropped, and the others were handed over. If no run is on, or one that has more, nothing happens.
///
/// The count is told and not what is added to it, so that a session can lose steps and still come to the same count.
#[derive(Clone, Copy)]
pub struct Age {
    pub kind: u32,
    pub accepted: u64,
    pub damaged: u64,
    pub dropped: u64,
}

impl Age {
    /// What is added to a run that has accepted `now`.
    pub fn past(&self, now: u64) -> Past {
        let more = self.accepted.saturating_sub(now);
        let damaged = self.damaged.min(more);
        let dropped = self.dropped.min(more - damaged);
        Past { handed: more - damaged - dropped, damaged, dropped }
    }
}

#[derive(Clone)]
pub struct Arrival {
    /// The buffer type that names the stream.
    pub kind: u32,
    pub lent: Lent,
    pub frame: Frame,
    pub seconds: i32,
    pub microseconds: i32,
}

/// The bytes of a frame, told in short.
#[derive(Clone)]
pub struct Frame {
    pub length: usize,
    /// The seed of its bytes.
    pub seed: u64,
    /// Service, field and line of one record after the other, written over these bytes as far as they reach.
    pub heads: Vec<[u32; 3]>,
}

impl Frame {
    /// Bytes that are no records.
    pub fn plain(length: usize, seed: u64) -> Frame {
        Frame { length, seed, heads: Vec::new() }
    }

    /// Records with these heads, and nothing behind them.
    pub fn records(heads: Vec<[u32; 3]>, seed: u64) -> Frame {
        Frame { length: RECORD * heads.len(), seed, heads }
    }

    pub fn write(&self, bytes: &mut [u8]) {
        random::fill(self.seed, bytes);
        for (record, head) in bytes.chunks_mut(RECORD).zip(&self.heads) {
            let head = head.iter().flat_map(|number| number.to_le_bytes());
            record.iter_mut().zip(head).for_each(|(byte, told)| *byte = told);
        }
    }

    pub fn bytes(&self) -> Vec<u8> {
        let mut bytes = vec![0; self.length];
        self.write(&mut bytes);
        bytes
    }
}

/// What an arrival is lent for memory.
#[derive(Clone, Copy, PartialEq)]
pub enum Lent {
    /// The memory of its stream, that of the pictures for a type that names no stream.
    Own,
    /// The memory of the other stream.
    Swapped,
    /// Other bytes, of this length.
    Other(usize),
}

impl Arrival {
    /// Which of the two memories is lent, the pictures' or the captions', and nothing for other bytes.
    pub fn memory(&self) -> Option<usize> {
        let own = STREAMS.iter().position(|kind| *kind == self.kind).unwrap_or(0);
        match self.lent {
            Lent::Own => Some(own),
            Lent::Swapped => Some(1 - own),
            Lent::Other(_) => None,
        }
    }
}

/// The length of a memory that is made for an opening.
pub fn made_length(length: u64) -> usize {
    if length <= LONGEST_MADE {
        length as usize
    } else {
        0
    }
}

impl Session {
    /// Random bytes in the device only stand for something once an opening replaces them.
    pub fn before_opening(&self) -> u64 {
        match self.steps.first() {
            Some(Step::Open { .. }) => self.before,
            _ => 0,
        }
    }
}
