//! What is mapped and unmapped: the slots of buffers, and places that are not quite one.

use crate::model::buffers::{Stream, MOST_MAPS};
use crate::model::Opened;
use crate::random::Random;
use crate::recorder::PICTURES;
use crate::session::Mapping;

/// The slot of a buffer, whether or not it was granted.
pub fn slot_of(stream: &Stream, index: usize) -> Mapping {
    let slot = stream.slot();
    Mapping { kind: stream.kind, offset: (index as u64 * slot) as u32, length: slot as u32, times: 1 }
}

/// The slot of a buffer that was granted, if there is one; of one that is mapped, if there is one and `mapped` asks for it.
pub fn granted(random: &mut Random, stream: &Stream, mapped: bool) -> Mapping {
    let count = stream.granted.max(1);
    let from = random.below(count);
    let mut turn = (0..count).map(|place| (from + place) % count);
    let index = turn.find(|index| mapped && stream.maps[*index] > 0).unwrap_or(from);
    slot_of(stream, index)
}

/// As many unmaps of each buffer as it has maps.
pub fn all(stream: &Stream) -> Vec<Mapping> {
    let mapped = (0..stream.granted).filter(|index| stream.maps[*index] > 0);
    mapped.map(|index| Mapping { times: stream.maps[index].into(), ..slot_of(stream, index) }).collect()
}

/// So many maps of a buffer that it comes to the limit, or one or two past it.
pub fn to_the_limit(random: &mut Random, stream: &Stream) -> Mapping {
    let index = random.below(stream.granted.max(1));
    let room = u32::from(MOST_MAPS - stream.maps[index]);
    Mapping { times: room + random.pick(&[0, 1, 1, 2]), ..slot_of(stream, index) }
}

/// A place that is wrong in one thing, most often by little; any place if nothing is open.
pub fn flawed(random: &mut Random, opened: Option<&Opened>, kind: u32) -> Mapping {
    let Some((opened, stream)) = opened.and_then(|opened| Some((opened, opened.stream(kind)?))) else {
        return anywhere(random, kind);
    };
    let mapped = random.chance(50);
    let good = granted(random, stream, mapped);
    let slot = stream.slot() as u32;
    let other = if kind == PICTURES { &opened.captions } else { &opened.pictures };
    let hostile = [0, 1, 4095, 4097, 0x7fff_ffff, 0x8000_0000, 0xffff_f000, u32::MAX];
    match random.below(12) {
        0 => Mapping { offset: good.offset.wrapping_add(random.pick(&[1, u32::MAX])), ..good },
        1 => Mapping { offset: good.offset.wrapping_add(random.pick(&[slot / 2, slot.wrapping_sub(1)])), ..good },
        2 | 3 => slot_of(stream, stream.granted + random.pick(&[0, 0, 1])),
        4 => slot_of(stream, random.pick(&[31, 32, 33])),
        5 => Mapping { length: good.length.wrapping_add(random.pick(&[1, u32::MAX])), ..good },
        6 => Mapping { length: random.pick(&[0, stream.frame_size, slot.wrapping_mul(2)]), ..good },
        7 => Mapping { kind, ..slot_of(other, random.below(4)) },
        8 => Mapping { kind: other_type(random), ..good },
        9 => Mapping { offset: random.pick(&hostile), ..good },
        10 => Mapping { length: random.pick(&hostile), ..good },
        _ => anywhere(random, kind),
    }
}

/// A type that names no stream.
fn other_type(random: &mut Random) -> u32 {
    random.pick(&[0, 2, 5, 7, 9, 0x101, 0x0100_0006, u32::MAX])
}

/// Any numbers, the first buffer of the least slot among them.
fn anywhere(random: &mut Random, kind: u32) -> Mapping {
    match random.below(4) {
        0 => Mapping { kind, offset: random.word(), length: random.word(), times: 1 },
        1 => Mapping { kind: other_type(random), offset: 0, length: 4096, times: 1 },
        2 => Mapping { kind, offset: 0, length: 0, times: 1 },
        _ => Mapping { kind, offset: 0, length: 4096, times: 1 },
    }
}
