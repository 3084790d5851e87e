//! Well made arguments: right size, type and memory; the fields that are answers hold anything.

use super::{captions, dequeued};
use crate::model::bytes::{put, put_signed};
use crate::model::control::{Control, NEXT};
use crate::model::format::CODES;
use crate::model::words::{self, *};
use crate::model::Opened;
use crate::random::Random;
use crate::recorder::{CAPTIONS, PICTURES};

/// An argument for this word, made with an eye to what the device keeps. It is about the stream that `kind` names, or about
/// the only one that the word allows.
pub fn argument(random: &mut Random, opened: Option<&Opened>, kind: u32, word: u32) -> Vec<u8> {
    let mut argument = vec![0; words::size(word)];
    if random.chance(40) {
        random.fill(&mut argument);
    }
    let bytes = argument.as_mut_slice();
    if let Some(at) = words::type_at(word) {
        put(bytes, at, allowed_type(random, kind, word));
    }
    match word {
        ENUM_FMT => enum_fmt(random, opened, bytes),
        S_FMT | TRY_FMT if kind == PICTURES => format(random, opened, bytes),
        S_FMT | TRY_FMT => {
            let present = opened.map_or(Default::default(), |opened| opened.lines);
            captions::wish(random, &present, bytes);
        }
        REQBUFS => return reqbufs(random, kind, 1),
        QUERYBUF | QBUF | DQBUF => buffer(random, opened, kind, word, bytes),
        G_CTRL => put(bytes, 0, control_id(random, opened)),
        S_CTRL => set_control(random, opened, bytes),
        QUERYCTRL => query_control(random, opened, bytes),
        S_CROP => crop(random, opened, bytes),
        _ => {}
    }
    argument
}

/// Calls that know one type only get the other one now and then, to be refused.
fn allowed_type(random: &mut Random, kind: u32, word: u32) -> u32 {
    match word {
        _ if random.chance(12) => kind,
        ENUM_FMT | CROPCAP | G_CROP | S_CROP => PICTURES,
        G_SLICED_VBI_CAP => CAPTIONS,
        _ => kind,
    }
}

/// A request for buffers: any number from `least` on, or one that no memory holds; none if `least` is 0.
pub fn reqbufs(random: &mut Random, kind: u32, least: u32) -> Vec<u8> {
    let mut argument = vec![0; 20];
    random.fill(&mut argument[12..]);
    let count = match random.below(10) {
        _ if least == 0 => 0,
        0 => random.pick(&[32, 33, u32::MAX]),
        1 if least == 1 => random.pick(&[0, 31]),
        2..=5 if least == 1 => random.between(1, 4) as u32,
        _ => random.between(least as i64, 40) as u32,
    };
    put(&mut argument, 0, count);
    put(&mut argument, 4, kind);
    put(&mut argument, 8, 1);
    argument
}

/// A look at one buffer.
pub fn querybuf(kind: u32, index: u32) -> Vec<u8> {
    let mut argument = vec![0; words::size(QUERYBUF)];
    put(&mut argument, 0, index);
    put(&mut argument, 4, kind);
    argument
}

fn enum_fmt(random: &mut Random, opened: Option<&Opened>, bytes: &mut [u8]) {
    let count = opened.map_or(1, |opened| opened.sheet.formats.len()) as u32;
    let index = match random.below(6) {
        0 => count,
        1 => random.pick(&[9, u32::MAX, count + 1]),
        _ => random.below(count as usize) as u32,
    };
    put(bytes, 0, index);
}

/// Sizes at, between and beyond the allowed ones, and all codes.
fn format(random: &mut Random, opened: Option<&Opened>, bytes: &mut [u8]) {
    let Some(opened) = opened else { return };
    let sheet = &opened.sheet;
    for (at, sizes) in [(4, sheet.width), (8, sheet.height)] {
        let steps = ((sizes.greatest - sizes.least) / sizes.step) as usize;
        // Small pictures let buffers fit into the memory.
        let on_grid = sizes.least + sizes.step.wrapping_mul(random.below(steps.min(16) + 1) as u32);
        let wanted = match random.below(12) {
            0 => random.pick(&[0, 1, u32::MAX, 0x8000_0000, sizes.least - 1, sizes.greatest + 1]),
            1 => random.word(),
            2 => sizes.least,
            3 => sizes.greatest,
            4..=6 => on_grid.wrapping_add(sizes.step / 2),
            7 => on_grid.wrapping_add(sizes.step / 2).wrapping_add(1),
            8 => on_grid.wrapping_add(random.below(sizes.step as usize) as u32),
            _ => on_grid,
        };
        put(bytes, at, wanted);
    }
    let code = match random.below(6) {
        0 => random.word(),
        1 => random.pick(&CODES),
        2 => random.pick(&CODES) ^ 1 << random.below(32),
        _ => sheet.formats[random.below(sheet.formats.len())].code,
    };
    put(bytes, 12, code);
}

fn buffer(random: &mut Random, opened: Option<&Opened>, kind: u32, word: u32, bytes: &mut [u8]) {
    if word != QUERYBUF {
        put(bytes, 48, 1);
    }
    let stream = opened.and_then(|opened| opened.stream(kind));
    let granted = stream.map_or(0, |stream| stream.granted) as u32;
    let free = if word == QBUF { stream.and_then(|stream| dequeued(stream, random)) } else { None };
    let index = match (random.below(20), free) {
        (0, _) => granted,
        (1, _) => random.pick(&[31, 32, 33, u32::MAX, granted.wrapping_sub(1)]),
        (2..=17, Some(index)) => index as u32,
        _ => random.below(granted as usize) as u32,
    };
    put(bytes, 0, index);
}

fn some_control<'a>(random: &mut Random, opened: Option<&'a Opened>) -> Option<&'a Control> {
    let controls = opened?.sheet.controls.as_slice();
    (!controls.is_empty()).then(|| &controls[random.below(controls.len())])
}

/// An id that is there, most of the time; else one that is near.
fn control_id(random: &mut Random, opened: Option<&Opened>) -> u32 {
    let Some(control) = some_control(random, opened) else {
        return random.pick(&[0, 0x0098_0900, NEXT]);
    };
    match random.below(12) {
        0 => control.id.wrapping_add(1),
        1 => control.id.wrapping_sub(1),
        2 => control.id ^ 1 << random.below(32),
        3 => control.id | NEXT,
        _ => control.id,
    }
}

/// Values at the ends of the range, beyond them, on the grid, and half way between two grid values.
fn set_control(random: &mut Random, opened: Option<&Opened>, bytes: &mut [u8]) {
    let Some(control) = some_control(random, opened) else {
        return put(bytes, 0, control_id(random, opened));
    };
    let id = if random.chance(90) { control.id } else { control_id(random, opened) };
    put(bytes, 0, id);
    let (minimum, maximum, step) = (control.minimum as i64, control.maximum as i64, control.step as i64);
    let inside = minimum + random.below((maximum - minimum + 1).max(1) as usize) as i64;
    let on_grid = inside - (inside - minimum) % step.max(1);
    let value = match random.below(12) {
        0 => minimum,
        1 => maximum,
        2 => minimum - 1,
        3 => maximum + 1,
        4 => random.pick(&[i32::MIN as i64, i32::MAX as i64, 0, -1]),
        5..=7 => on_grid + step / 2,
        8 => on_grid + step / 2 + 1,
        _ => inside,
    };
    put_signed(bytes, 4, value.clamp(i32::MIN as i64, i32::MAX as i64) as i32);
}

fn query_control(random: &mut Random, opened: Option<&Opened>, bytes: &mut [u8]) {
    let id = control_id(random, opened);
    let id = match random.below(6) {
        0 | 1 => id | NEXT,
        2 => random.pick(&[NEXT, u32::MAX, 0x7fff_ffff, 0]),
        3 => id.wrapping_sub(1) | NEXT,
        _ => id,
    };
    put(bytes, 0, id);
}

/// Rectangles around the bounds and at the ends of the numbers.
fn crop(random: &mut Random, opened: Option<&Opened>, bytes: &mut [u8]) {
    let Some(opened) = opened else { return };
    let bounds = opened.sheet.bounds;
    for (at, start, size) in [(4, bounds.left, bounds.width), (8, bounds.top, bounds.height)] {
        let length = match random.below(8) {
            0 => random.pick(&[i32::MIN, i32::MAX, -1, 0, 1]),
            1 => random.pick(&[size - 1, size, size + 1]),
            _ => random.between(1, size as i64) as i32,
        };
        let place = match random.below(8) {
            0 => random.pick(&[i32::MIN, i32::MAX, 0, -1, 1]),
            1 => random.pick(&[start - 1, start, start + size, start + size - 1]),
            2 => start.saturating_add(random.pick(&[0, 1, 2, 31])),
            3 => start.wrapping_add(size).wrapping_sub(length).wrapping_add(random.between(-1, 1) as i32),
            _ => start + random.between(-20, size as i64 + 20) as i32,
        };
        put_signed(bytes, at, place);
        put_signed(bytes, at + 8, length);
    }
}
