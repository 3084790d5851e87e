//! Calls with something wrong in them.

use super::damage::flipped;
use super::{arguments, captions};
use crate::model::services::Lines;
use crate::model::words::{self, *};
use crate::model::Opened;
use crate::random::Random;
use crate::recorder::CAPTIONS;
use crate::session::{Arrival, Frame, Lent};

/// A request with something wrong, or with bytes at random that may happen to be right.
pub fn request(random: &mut Random, opened: Option<&Opened>, kind: u32) -> (u32, Vec<u8>) {
    let (word, _) = random.pick(&ALL);
    let argument = arguments::argument(random, opened, kind, word);
    match random.below(10) {
        0 => (unknown_word(random, word), argument),
        1 => resized_word(random, word),
        2 | 3 => (word, other_length(random, argument)),
        4 => (word, random_bytes(random, argument)),
        5 | 6 => (word, flipped(random, argument)),
        7 => (word, wrong_word_at(random, argument, type_at(word))),
        8 => (word, wrong_word_at(random, argument, memory_at(word))),
        _ => (word, wrong_word_at(random, argument, index_at(word))),
    }
}

/// A word that is near a known one, or any.
fn unknown_word(random: &mut Random, word: u32) -> u32 {
    match random.below(4) {
        0 => random.word(),
        1 => word & 0xffff_ff00 | random.word() & 0xff,
        _ => word ^ 1 << random.below(32),
    }
}

/// A known word with another size, and an argument of that size.
fn resized_word(random: &mut Random, word: u32) -> (u32, Vec<u8>) {
    let size = random.below(300) as u32;
    let word = word & 0xc000_ffff | size << 16;
    let mut argument = vec![0; words::size(word)];
    random.fill(&mut argument);
    (word, argument)
}

fn other_length(random: &mut Random, mut argument: Vec<u8>) -> Vec<u8> {
    let size = argument.len();
    let length = match random.below(6) {
        0 => 0,
        1 => size - 1,
        2 => size + 1,
        3 => 300,
        4 => words::size(random.pick(&ALL).0),
        _ => random.below(2 * size + 1),
    };
    argument.resize(length, 0);
    argument
}

fn random_bytes(random: &mut Random, mut argument: Vec<u8>) -> Vec<u8> {
    random.fill(&mut argument);
    argument
}

/// Puts a number that is mostly wrong at a place, if the argument has such a place.
fn wrong_word_at(random: &mut Random, mut argument: Vec<u8>, at: Option<usize>) -> Vec<u8> {
    if let Some(at) = at {
        let number: u32 = random.pick(&[0, 1, 2, 3, 5, 6, 7, 0x80, 33, 257, 0x0100_0001, 0x106, u32::MAX]);
        argument[at..at + 4].copy_from_slice(&number.to_le_bytes());
    }
    argument
}

fn memory_at(word: u32) -> Option<usize> {
    match word {
        REQBUFS => Some(8),
        QUERYBUF | QBUF | DQBUF => Some(48),
        _ => None,
    }
}

fn index_at(word: u32) -> Option<usize> {
    match word {
        ENUM_FMT | QUERYBUF | QBUF | DQBUF | G_CTRL | S_CTRL | QUERYCTRL => Some(0),
        _ => None,
    }
}

/// A whole arrival with something wrong in it: the frame, the time, the memory that is lent, or the type.
pub fn arrival(random: &mut Random, arrival: Arrival, lines: [&Lines; 2], memory_length: usize) -> Arrival {
    match random.below(10) {
        0..=2 => Arrival { frame: other_frame(random, &arrival, lines), ..arrival },
        3 | 4 => {
            let microseconds = random.pick(&[-1, 1_000_000, 1_000_001, i32::MIN, i32::MAX, 999_999]);
            Arrival { microseconds, ..arrival }
        }
        5 => Arrival { lent: Lent::Swapped, ..arrival },
        6 => Arrival { lent: Lent::Other(other_memory_length(random, memory_length)), ..arrival },
        7 => Arrival { kind: random.pick(&[0, 2, 3, 5, 7, 9, 0x101, 0x0100_0006, u32::MAX]), ..arrival },
        _ => {
            let frame = other_frame(random, &arrival, lines);
            Arrival { frame, microseconds: random.word() as i32, ..arrival }
        }
    }
}

/// The lines are those in force, and those before them.
fn other_frame(random: &mut Random, arrival: &Arrival, [lines, earlier]: [&Lines; 2]) -> Frame {
    if arrival.kind == CAPTIONS {
        return captions::flawed(random, lines, earlier);
    }
    Frame::plain(other_frame_length(random, arrival.frame.length), arrival.frame.seed)
}

fn other_frame_length(random: &mut Random, size: usize) -> usize {
    match random.below(7) {
        0 => 0,
        1 | 2 => size.saturating_sub(1),
        3 | 4 => size + 1,
        5 => size.next_multiple_of(4096),
        _ => random.below(2 * size + 2),
    }
}

fn other_memory_length(random: &mut Random, length: usize) -> usize {
    match random.below(4) {
        0 => 0,
        1 => length.saturating_sub(1),
        2 => length + 1,
        _ => random.below(length + 100),
    }
}
