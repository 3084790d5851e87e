//! The packing of caption lines into a block, and the way back: what a writer and reader can do, and random calls that
//! compare two of them.

pub mod cases;
pub mod compare;
pub mod faulty;
pub mod judge;
pub mod seen;

use crate::model;
use crate::model::bytes::word;
use crate::model::packing::LINE;
use crate::model::services::RECORD;
use crate::random;
use compare::Comparison;
use seen::Seen;
use std::fmt;

/// A writer and a reader of blocks. No call depends on another.
pub trait Packer {
    /// Records of 64 bytes into a block.
    fn pack(&self, lines: &[u8], block: &mut [u8]) -> u32;
    /// A block into records of 64 bytes.
    fn unpack(&self, block: &[u8], lines: &mut [u8]) -> u32;
    fn block_length(&self, lines: usize) -> usize;

    fn call(&self, way: Way, input: &[u8], output: &mut [u8]) -> u32 {
        match way {
            Way::Write => self.pack(input, output),
            Way::Read => self.unpack(input, output),
        }
    }
}

/// The model.
pub struct Model;

impl Packer for Model {
    fn pack(&self, lines: &[u8], block: &mut [u8]) -> u32 {
        model::packing::pack(lines, block)
    }

    fn unpack(&self, block: &[u8], lines: &mut [u8]) -> u32 {
        model::packing::unpack(block, lines)
    }

    fn block_length(&self, lines: usize) -> usize {
        model::packing::block_length(lines)
    }
}

/// Which of the two is called.
#[derive(Clone, Copy, Debug, PartialEq)]
pub enum Way {
    Write,
    Read,
}

/// A call: what goes in, and how long the output is that it is lent.
#[derive(Clone)]
pub struct Call {
    pub way: Way,
    pub input: Vec<u8>,
    pub room: usize,
}

/// Compares so many calls; says what differed, if anything did.
pub fn run<E: Packer, T: Packer>(seed: u64, calls: u64, expected: &E, tested: &T) -> Result<Seen, String> {
    let mut seen = Seen::default();
    let mut comparison = Comparison::default();
    for index in 0..calls {
        let seed = random::mix(seed.wrapping_add(2) ^ random::mix(index));
        let call = cases::call(seed);
        comparison.call(&call, seed, expected, tested, &mut seen).map_err(|found| {
            let told = format!("    expected {}\n    got      {}", found.expected, found.got);
            format!("packing, call {index}, seed {seed:#x}: {}\n{told}\n  {call}", found.what)
        })?;
    }
    Ok(seen)
}

/// The heads of records or lines; what is left over counts among the bytes.
impl fmt::Display for Call {
    fn fmt(&self, f: &mut fmt::Formatter) -> fmt::Result {
        let Call { way, input, room } = self;
        write!(f, "{way:?} {} bytes into {room}:", input.len())?;
        match way {
            Way::Write => {
                for record in input.chunks_exact(RECORD) {
                    write!(f, " [{:#x} {} {}]", word(record, 0), word(record, 4), word(record, 8))?;
                }
            }
            Way::Read => {
                let opening = input.len().min(4);
                write!(f, " {}", input[..opening].escape_ascii())?;
                let masks = input.starts_with(b"itv0") && input.len() >= 12;
                if masks {
                    write!(f, " {:#010x} {:#010x}", word(input, 4), word(input, 8))?;
                }
                let lines = input[if masks { 12 } else { opening }..].chunks_exact(LINE);
                write!(f, " {:?}", lines.map(|line| line[0]).collect::<Vec<_>>())?;
            }
        }
        Ok(())
    }
}
