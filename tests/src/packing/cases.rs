//! Random calls of the writer and of the reader: good ones, and ones in which one rule is broken.

use super::{judge, Call, Way};
use crate::generate::damage::flipped;
use crate::model::bytes::{put, word};
use crate::model::packing::{block_length, pack, LINE, MOST};
use crate::model::services::{RECORD, SERVICES};
use crate::random::Random;

/// The call of this seed.
pub fn call(seed: u64) -> Call {
    let random = &mut Random::new(seed);
    match random.weighted(&[25, 30, 15, 30]) {
        0 => {
            let count = count(random, 0, MOST);
            Call { way: Way::Write, input: lines(random, count), room: block_length(count) }
        }
        1 => flawed_lines(random),
        2 => {
            let count = count(random, 0, MOST);
            Call { way: Way::Read, input: block(random, count), room: RECORD * count }
        }
        _ => flawed_block(random),
    }
}

/// How many lines, often at an edge.
fn count(random: &mut Random, least: usize, most: usize) -> usize {
    let any = random.below(MOST + 1);
    random.pick(&[0, 1, 2, MOST - 1, MOST, any, any, any]).clamp(least, most)
}

/// So many lines as records, in any order. What the writer does not look at holds anything, or zeros.
pub fn lines(random: &mut Random, count: usize) -> Vec<u8> {
    let mut places: Vec<(u32, u32)> = judge::places().collect();
    let zeros = random.chance(20);
    let mut records = vec![0; RECORD * count];
    for (place, record) in records.chunks_mut(RECORD).enumerate() {
        random.fill(&mut record[if zeros { 16 } else { 12 }..]);
        if zeros {
            record[16 + random.pick(&[0, 2, 13, 42])..].fill(0);
        }
        places.swap(place, place + random.below(MOST - place));
        put_head(record, [random.pick(&SERVICES).into(), places[place].0, places[place].1]);
    }
    records
}

/// Service, field and line of a record.
pub fn put_head(record: &mut [u8], head: [u32; 3]) {
    for (at, number) in [0, 4, 8].into_iter().zip(head) {
        put(record, at, number);
    }
}

/// A block of so many lines.
pub fn block(random: &mut Random, count: usize) -> Vec<u8> {
    let mut block = vec![0; block_length(count)];
    assert_eq!(pack(&lines(random, count), &mut block), 0, "lines that were made good");
    block
}

/// Lines with something wrong, most of the time: a changed bit may be free.
fn flawed_lines(random: &mut Random) -> Call {
    let count = count(random, 1, MOST);
    let mut input = lines(random, count);
    let mut room = block_length(count);
    let record = random.below(count);
    match random.below(10) {
        0 => wrong_service(random, &mut input[RECORD * record..]),
        1 => wrong_field(random, &mut input[RECORD * record..]),
        2 => wrong_line(random, &mut input[RECORD * record..]),
        3 | 4 => {
            line_again(random, &mut input, record);
            room = block_length(random.pick(&[count, count + 1]));
        }
        5 => {
            let length = other_length(random, input.len());
            input.resize(length, 0);
            room = block_length(random.pick(&[length / RECORD, length.div_ceil(RECORD)]));
        }
        6 | 7 => room = other_room(random, room),
        8 => input = flipped(random, input),
        _ => random.fill(&mut input),
    }
    Call { way: Way::Write, input, room }
}

/// None, two, one that is not known, or one with bits above it. An identifier is no service.
fn wrong_service(random: &mut Random, record: &mut [u8]) {
    let service = word(record, 0);
    let another = u32::from(random.pick(&SERVICES));
    let wrong = match random.below(4) {
        0 => 0,
        1 => service | another,
        2 => random.pick(&[service | 2, service | 0x1_0000, service | 0x8000_0000, service << 16]),
        _ => random.pick(&[2, 4, 5, 7, 0x800, 0x2000, 0x8000, 0x5401, 0xffff, u32::MAX]),
    };
    put(record, 0, wrong);
}

fn wrong_field(random: &mut Random, record: &mut [u8]) {
    let field = word(record, 4);
    put(record, 4, random.pick(&[2, 3, field | 0x100, field | 0x8000_0000, u32::MAX]));
}

/// Among them lines that would be one of the other field, if the field's own end were not looked at.
fn wrong_line(random: &mut Random, record: &mut [u8]) {
    let (field, line) = (word(record, 4), word(record, 8));
    let other_field = if field == 0 { line + 18 } else { line.wrapping_sub(18) };
    put(record, 8, random.pick(&[0, 5, 24, 41, other_field, other_field, line | 0x100, line | 0x8000_0000, u32::MAX]));
}

/// The line of a record once more, by any service and with any payload, in any place.
fn line_again(random: &mut Random, lines: &mut Vec<u8>, record: usize) {
    let mut again = lines[RECORD * record..RECORD * (record + 1)].to_vec();
    if random.chance(70) {
        put(&mut again, 0, random.pick(&SERVICES).into());
        random.fill(&mut again[12..]);
    }
    let at = RECORD * random.below(lines.len() / RECORD + 1);
    lines.splice(at..at, again);
}

/// Not a multiple of a record's.
fn other_length(random: &mut Random, length: usize) -> usize {
    let by = random.pick(&[1, 32, 63]);
    if random.chance(50) {
        length + by
    } else {
        length - by
    }
}

/// A length of an output that is near the right one, or that of another number of lines, or any.
fn other_room(random: &mut Random, room: usize) -> usize {
    match random.below(4) {
        0 => random.pick(&[room.saturating_sub(1), room + 1]),
        1 => random.pick(&[LINE, 8, RECORD].map(|by| room + by)),
        2 => random.pick(&[LINE, 8, RECORD].map(|by| room.saturating_sub(by))),
        _ => {
            let any = random.below(2500);
            random.pick(&[0, 4, 12, 12 + LINE * MOST, any])
        }
    }
}

/// A block with something wrong, most of the time.
fn flawed_block(random: &mut Random) -> Call {
    let kind = random.below(14);
    // With all lines there are no masks to damage.
    let count = count(random, 1, if matches!(kind, 4..=6) { MOST - 1 } else { MOST });
    let mut input = block(random, count);
    let mut room = RECORD * count;
    let head = input.len() - LINE * count;
    let line = head + LINE * random.below(count);
    match kind {
        0 | 1 => wrong_opening(random, &mut input),
        2 => input[line] = random.pick(&[0, 2, 3, 6, 8, 255]),
        3 => not_zeroed(random, &mut input[line..line + LINE]),
        4 => {
            let bit = random.below(64 - MOST);
            flip(&mut input, MOST + random.pick(&[0, 63 - MOST, bit]));
            // With a line for that bit, or without.
            if random.chance(50) {
                input.extend_from_within(line..line + LINE);
                room += RECORD;
            }
        }
        5 => {
            flip(&mut input, random.below(MOST));
            room = RECORD * random.pick(&[count - 1, count, count + 1]);
        }
        6 => (input, room) = all_bits(random, count),
        7 => input.extend(vec![random.pick(&[0, 1, 255]); random.pick(&[1, 2, 3, 4, LINE])]),
        8 => input.truncate(shorter(random, input.len())),
        9 => room = other_room(random, room),
        10 => (input, room) = line_without_bit(random),
        11 => input = flipped(random, input),
        12 => random.fill(&mut input[head..]),
        _ => random.fill(&mut input),
    }
    Call { way: Way::Read, input, room }
}

/// One letter is another, or is in the other case, or all are those of the other opening.
fn wrong_opening(random: &mut Random, block: &mut [u8]) {
    let letter = random.below(4);
    match random.below(3) {
        0 => block[letter] ^= 1 << random.below(8),
        1 => block[random.below(3)] ^= 0x20,
        _ => block[..3].iter_mut().for_each(|letter| *letter ^= 0x20),
    }
}

/// Flips one of the 64 bits of the masks.
pub fn flip(block: &mut [u8], bit: usize) {
    block[4 + bit / 8] ^= 1 << (bit % 8);
}

/// A line with one byte that is beyond what its service carries: the first there, the last, or any.
fn not_zeroed(random: &mut Random, line: &mut [u8]) {
    let (identifier, carried) = random.pick(&[(4, 2), (5, 2), (7, 13)]);
    line[0] = identifier;
    line[1 + carried..].fill(0);
    let any = carried + random.below(42 - carried);
    line[1 + random.pick(&[carried, 41, any])] = random.between(1, 255) as u8;
}

/// The bits of all lines behind an opening that has masks, or masks behind the one that has none.
fn all_bits(random: &mut Random, count: usize) -> (Vec<u8>, usize) {
    let masks = [255, 255, 255, 255, 15, 0, 0, 0];
    if random.chance(30) {
        let mut fewer = block(random, count);
        fewer[4..12].copy_from_slice(&masks);
        return (fewer, RECORD * random.pick(&[count, MOST]));
    }
    let mut all = block(random, MOST);
    all.splice(4..4, masks);
    if random.chance(70) {
        all[..4].copy_from_slice(b"itv0");
    }
    (all, RECORD * MOST)
}

fn shorter(random: &mut Random, length: usize) -> usize {
    match random.below(4) {
        0 => length - 1,
        1 => length - LINE,
        2 => random.below(13),
        _ => random.below(length),
    }
}

/// No bit, and a line behind the masks.
fn line_without_bit(random: &mut Random) -> (Vec<u8>, usize) {
    let mut empty = block(random, 0);
    let line = block(random, 1).split_off(12);
    empty.extend(if random.chance(50) { vec![0; LINE] } else { line });
    (empty, random.pick(&[0, 0, RECORD]))
}
