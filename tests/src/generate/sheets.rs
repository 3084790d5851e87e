//! Good sheets at random: mostly small pictures, and some at the limits of the rules.

use crate::draft::{ControlDraft, Draft};
use crate::model::format::CODES;
use crate::random::Random;

/// A good sheet with small pictures.
pub fn small(random: &mut Random) -> Draft {
    let formats = random.between(1, 5) as usize;
    let controls = random.below(12);
    Draft { width: small_sizes(random), height: small_sizes(random), ..common(random, formats, controls) }
}

/// A good sheet with pictures so small that each fits the least slot.
pub fn tiny(random: &mut Random) -> Draft {
    let mut size = || [2, 2 * random.between(1, 8) as u32, 2];
    let (width, height) = (size(), size());
    Draft { width, height, ..small(random) }
}

/// A good sheet that reaches the ends of some rules.
pub fn limits(random: &mut Random) -> Draft {
    let formats = random.pick(&[1, 1, 9, 9, 8, 2]);
    let controls = random.pick(&[0, 0, 32, 32, 31, 1]);
    let mut draft =
        Draft { width: small_sizes(random), height: small_sizes(random), ..common(random, formats, controls) };
    if random.chance(60) {
        draft.width = extreme_sizes(random);
    }
    if random.chance(60) {
        draft.height = extreme_sizes(random);
    }
    draft
}

fn common(random: &mut Random, formats: usize, controls: usize) -> Draft {
    let bounds = bounds(random);
    Draft {
        driver: name(random),
        card: name(random),
        bus: name(random),
        version: random.word(),
        formats: formats_of(random, formats),
        width: [2, 2, 2],
        height: [2, 2, 2],
        alignment: random.pick(&[2, 4, 8, 16, 32, 64]),
        bounds,
        default: inside(random, bounds),
        aspect: [1 + random.word() % 100, random.pick(&[1, 2, 59, 11, u32::MAX])],
        controls: controls_of(random, controls),
    }
}

/// A field with a zero byte: at any place, bytes of all kinds before and behind it.
fn name<const N: usize>(random: &mut Random) -> [u8; N] {
    let mut field = [0; N];
    let zero = random.below(N);
    random.fill(&mut field[..zero]);
    if random.chance(30) {
        random.fill(&mut field[zero + 1..]);
    }
    field[zero] = 0;
    field
}

/// Distinct codes in any order.
fn formats_of(random: &mut Random, count: usize) -> Vec<(u32, [u8; 32])> {
    let mut codes = CODES;
    for place in 0..count {
        let other = place + random.below(codes.len() - place);
        codes.swap(place, other);
    }
    codes[..count].iter().map(|code| (*code, name(random))).collect()
}

fn small_sizes(random: &mut Random) -> [u32; 3] {
    let least = 2 * random.between(1, 8) as u32;
    let step = 2 * random.between(1, 6) as u32;
    let steps = random.below(((64 - least) / step) as usize + 1) as u32;
    [least, least + steps * step, step]
}

fn extreme_sizes(random: &mut Random) -> [u32; 3] {
    match random.below(6) {
        0 => [2, 8192, 2],
        1 => [2, 2, random.pick(&[2, 8192, 0x8000_0000, 0xffff_fffe])],
        2 => [8192, 8192, random.pick(&[2, 8190, 0xffff_fffe])],
        3 => [2, 8192, random.pick(&[10, 18, 26, 126, 390, 8190])],
        4 => [4, 8192, random.pick(&[4, 92, 178, 356, 2, 8188])],
        _ => {
            let step = random.pick(&[6, 14, 30, 510, 1022]);
            [2, 2 + step * (8190 / step), step]
        }
    }
}

fn bounds(random: &mut Random) -> [i32; 4] {
    let mut start = || random.pick(&[-32_768, 32_767, 0, -8, -7, -1, 1, 100, -100]);
    let (left, top) = (start(), start());
    let mut size = || match random.below(5) {
        0 => 1,
        1 => 8192,
        _ => random.between(1, 700) as i32,
    };
    [left, top, size(), size()]
}

/// A rectangle of at least one point inside the bounds, often touching an edge, or beginning a line below it.
fn inside(random: &mut Random, bounds: [i32; 4]) -> [i32; 4] {
    let mut along = |start: i32, size: i32| match random.below(5) {
        0 => (start, size),
        1 => (start + size - 1, 1),
        2 if size > 1 => (start + 1, size - 1),
        _ => {
            let part = random.between(1, size as i64) as i32;
            (start + random.between(0, (size - part) as i64) as i32, part)
        }
    };
    let (left, width) = along(bounds[0], bounds[2]);
    let (top, height) = along(bounds[1], bounds[3]);
    [left, top, width, height]
}

fn controls_of(random: &mut Random, count: usize) -> Vec<ControlDraft> {
    ids(random, count).into_iter().map(|id| control(random, id)).collect()
}

/// Ids that rise, some next to each other, some at the ends.
fn ids(random: &mut Random, count: usize) -> Vec<u32> {
    let mut ids = Vec::new();
    while ids.len() < count {
        let id = match random.below(8) {
            0 => 0,
            1 => 0x7fff_ffff,
            2 => random.word() >> 1,
            _ => 0x0098_0900 + random.below(60) as u32,
        };
        if !ids.contains(&id) {
            ids.push(id);
        }
    }
    ids.sort_unstable();
    ids
}

fn control(random: &mut Random, id: u32) -> ControlDraft {
    let kind = random.pick(&[1, 1, 1, 2, 3, 4]);
    let [minimum, maximum, step, initial] = match kind {
        1 => grid(random),
        2 => [0, 1, 1, random.below(2) as i32],
        3 => {
            let last = random.pick(&[0, 1, 5, 31, i32::MAX]);
            [0, last, 1, random.between(0, last as i64) as i32]
        }
        _ => [0; 4].map(|_| random.word() as i32),
    };
    let flags = if random.chance(60) { 0 } else { random.below(8) as u32 };
    ControlDraft { id, kind, name: name(random), minimum, maximum, step, initial, flags, reserved: [0; 2] }
}

/// Minimum, maximum, step and default of an integer control.
fn grid(random: &mut Random) -> [i32; 4] {
    let (minimum, step, steps) = match random.below(6) {
        0 => (i64::from(i32::MIN), random.pick(&[1, 3, 5, 15, 257, 65_537, 16_843_009]), -1),
        1 => (random.between(-5, 5), random.pick(&[1, 2, i64::from(i32::MAX)]), 0),
        2 => (i64::from(i32::MIN), i64::from(i32::MAX), random.between(0, 2)),
        3 => (-10, 4, 5),
        _ => (random.between(-300, 300), random.between(1, 20), random.between(0, 30)),
    };
    let steps = if steps < 0 { u32::MAX as i64 / step } else { steps };
    let initial = minimum + step * random.between(0, steps);
    [minimum, minimum + step * steps, step, initial].map(|number| number as i32)
}
