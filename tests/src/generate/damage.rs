//! Damaged sheets: one rule just broken, or bytes changed, cut off, added or made up.

use super::sheets;
use crate::draft::{ControlDraft, Draft};
use crate::model::format::{CODES, GREY};
use crate::random::Random;

/// A sheet with something wrong, most of the time: some changes hit a byte that may have any value.
pub fn damaged(random: &mut Random) -> Vec<u8> {
    let mut draft = if random.chance(80) { sheets::small(random) } else { sheets::limits(random) };
    match random.below(10) {
        0..=5 => {
            break_one_rule(random, &mut draft);
            draft.bytes()
        }
        6 => wrong_contents(random, draft.bytes()),
        7 => flipped(random, draft.bytes()),
        8 => other_length(random, draft.bytes()),
        _ => made_up(random, draft.bytes()),
    }
}

fn break_one_rule(random: &mut Random, draft: &mut Draft) {
    match random.below(4) {
        0 => break_identity_or_formats(random, draft),
        1 => break_geometry(random, draft),
        2 => break_rectangles(random, draft),
        _ => break_controls(random, draft),
    }
}

/// A text without a zero byte.
fn endless<const N: usize>() -> [u8; N] {
    [b'x'; N]
}

fn break_identity_or_formats(random: &mut Random, draft: &mut Draft) {
    let last = draft.formats.len() - 1;
    let some = random.below(last + 1);
    match random.below(9) {
        0 => draft.driver = endless(),
        1 => draft.card = endless(),
        2 => draft.bus = endless(),
        3 => draft.formats[some].1 = endless(),
        4 => draft.formats[some].0 ^= 1 << random.below(32),
        5 => draft.formats[some].0 = draft.formats[some].0.swap_bytes(),
        6 => draft.formats.push(draft.formats[some]),
        7 => draft.formats.clear(),
        _ => {
            draft.formats = CODES.map(|code| (code, [0; 32])).to_vec();
            draft.formats.push((GREY, [0; 32]));
        }
    }
}

fn break_geometry(random: &mut Random, draft: &mut Draft) {
    let sizes = if random.chance(50) { &mut draft.width } else { &mut draft.height };
    let [least, greatest, step] = *sizes;
    match random.below(14) {
        0 => sizes[0] = 0,
        1 => sizes[0] = least + 1,
        2 => *sizes = [least + 1, greatest + 1, step],
        3 => sizes[0] = greatest.wrapping_add(step),
        4 => *sizes = [least, least.wrapping_add((8194 / step * step).wrapping_add(step)), step],
        5 => sizes[2] = 0,
        6 => sizes[2] = 1,
        7 => *sizes = [least, least + 9, 3],
        8 => sizes[1] = greatest + 1,
        9 => sizes[1] = greatest + step / 2,
        10 => *sizes = [8194, 8194, 2],
        11 => *sizes = [0xffff_fff0, 16, 2],
        12 => *sizes = [least, 0xffff_fffe, 2],
        _ => draft.alignment = random.pick(&[0, 1, 3, 6, 12, 63, 65, 128, 0xffff_ffff, 0x4000_0000]),
    }
}

fn break_rectangles(random: &mut Random, draft: &mut Draft) {
    let [left, top, width, height] = draft.bounds;
    let side = random.below(2);
    match random.below(12) {
        0 => draft.bounds[side] = 32_768,
        1 => draft.bounds[side] = -32_769,
        2 => draft.bounds[2 + side] = 0,
        3 => draft.bounds[2 + side] = 8193,
        4 => draft.bounds[2 + side] = -1,
        5 => draft.default[side] = draft.bounds[side] - 1,
        6 => draft.default = [left + 1, top, width, height],
        7 => draft.default = [left, top + 1, width, height],
        8 => draft.default[2 + side] = 0,
        9 => draft.default[2 + side] = -1,
        10 => draft.default[2 + side] = i32::MAX,
        _ => draft.aspect[side] = 0,
    }
}

fn break_controls(random: &mut Random, draft: &mut Draft) {
    if draft.controls.is_empty() || random.chance(5) {
        let one = ControlDraft { id: 1, ..numbers_of(1, [0, 1, 1, 0]) };
        draft.controls = (0..33).map(|id| ControlDraft { id, ..one }).collect();
        return;
    }
    let place = random.below(draft.controls.len());
    match random.below(6) {
        0 => draft.controls[place].name = endless(),
        1 => draft.controls[place].reserved[random.below(2)] = 1 << random.below(32),
        2 => draft.controls[place].flags |= 8 << random.below(29),
        3 => draft.controls[place].kind = random.pick(&[0, 5, 6, 0xffff_ffff]),
        4 => break_ids(random, draft, place),
        _ => {
            let ControlDraft { id, name, .. } = draft.controls[place];
            draft.controls[place] = ControlDraft { id, name, ..broken_range(random) };
        }
    }
}

fn break_ids(random: &mut Random, draft: &mut Draft, place: usize) {
    match random.below(3) {
        0 => draft.controls[place].id |= 0x8000_0000,
        1 => {
            let again = draft.controls[place];
            draft.controls.insert(place, again);
        }
        _ => {
            let other = random.below(draft.controls.len());
            draft.controls.swap(place, other);
        }
    }
}

fn numbers_of(kind: u32, [minimum, maximum, step, initial]: [i32; 4]) -> ControlDraft {
    ControlDraft { id: 0, kind, name: [0; 32], minimum, maximum, step, initial, flags: 0, reserved: [0; 2] }
}

/// Numbers that are just wrong for the type.
fn broken_range(random: &mut Random) -> ControlDraft {
    let (kind, numbers) = random.pick(&[
        (1, [1, 0, 1, 1]),
        (1, [1, 0, 1, 0]),
        (1, [0, 10, 0, 0]),
        (1, [0, 10, -1, 0]),
        (1, [0, 10, 3, 0]),
        (1, [0, 10, 5, 6]),
        (1, [0, 10, 5, 15]),
        (1, [0, 10, 5, -5]),
        (1, [i32::MIN, i32::MAX, 2, 0]),
        (1, [i32::MIN, i32::MAX, i32::MIN, 0]),
        (1, [5, 5, 0, 5]),
        (2, [0, 2, 1, 0]),
        (2, [0, 1, 2, 0]),
        (2, [1, 1, 1, 1]),
        (2, [0, 0, 1, 0]),
        (2, [0, 1, 1, 2]),
        (2, [0, 1, 1, -1]),
        (2, [-1, 0, 1, 0]),
        (3, [1, 4, 1, 1]),
        (3, [-1, 4, 1, 0]),
        (3, [0, 4, 2, 0]),
        (3, [0, 4, 1, 5]),
        (3, [0, -1, 1, 0]),
        (3, [0, 0, 0, 0]),
    ]);
    numbers_of(kind, numbers)
}

/// One word of the table of contents changed.
fn wrong_contents(random: &mut Random, mut bytes: Vec<u8>) -> Vec<u8> {
    let at = 4 * random.below(8);
    let old = u32::from_le_bytes(bytes[at..at + 4].try_into().unwrap());
    let new = match random.below(6) {
        0 => old.wrapping_add(1),
        1 => old.wrapping_sub(1),
        2 => 0,
        3 => u32::MAX,
        4 => old ^ 1 << random.below(32),
        _ => random.word(),
    };
    bytes[at..at + 4].copy_from_slice(&new.to_le_bytes());
    bytes
}

pub fn flipped(random: &mut Random, mut bytes: Vec<u8>) -> Vec<u8> {
    for _ in 0..random.pick(&[1, 1, 1, 2, 5]) {
        if !bytes.is_empty() {
            let at = random.below(bytes.len());
            bytes[at] ^= 1 << random.below(8);
        }
    }
    bytes
}

fn other_length(random: &mut Random, mut bytes: Vec<u8>) -> Vec<u8> {
    let length = bytes.len();
    let new = match random.below(8) {
        0 => 0,
        1 => random.below(40),
        2 => random.below(length),
        3 => length - 1,
        4 => length + 1,
        5 => length + 68,
        6 => length - 68.min(length),
        _ => length + random.below(600),
    };
    bytes.resize(new, 0);
    bytes
}

/// Random bytes, some behind a right table of contents.
fn made_up(random: &mut Random, mut bytes: Vec<u8>) -> Vec<u8> {
    let from = random.pick(&[0, 32, 116, 184]).min(bytes.len());
    random.fill(&mut bytes[from..]);
    bytes
}
