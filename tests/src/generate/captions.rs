//! Wishes for services, and frames of caption lines: whole ones, and ones with a flaw.

use crate::model::bytes::put_half;
use crate::model::services::{Lines, CAPTION_525, OFFERED, SERVICES};
use crate::random::Random;
use crate::session::Frame;

/// All services.
const ALL: u16 = 0x5401;

/// Some of these services, each as likely as not.
fn some_of(random: &mut Random, set: u16) -> u16 {
    set & random.word() as u16
}

/// The set and the lines that S_FMT and TRY_FMT ask for. Lines that are not set here hold anything: they are ignored.
pub fn wish(random: &mut Random, present: &Lines, bytes: &mut [u8]) {
    let set = match random.below(16) {
        0..=2 => CAPTION_525,
        3..=5 => random.pick(&SERVICES) | some_of(random, ALL),
        6 => ALL,
        7 => ALL | some_of(random, !ALL),
        8 => random.pick(&[0x0002, 0x8000, !ALL]),
        9 => random.word() as u16,
        _ => 0,
    };
    put_half(bytes, 4, set);
    if set == 0 {
        let lines = asked_lines(random, present);
        for (place, set) in lines.sets().enumerate() {
            put_half(bytes, 6 + 2 * place, set);
        }
    }
}

/// The lines that are in force, some of those offered, a single one, anything, or nothing.
fn asked_lines(random: &mut Random, present: &Lines) -> Lines {
    let (field, line) = (random.below(2), random.below(24));
    let mut lines = Lines::default();
    match random.below(6) {
        0 => lines = *present,
        1 => lines.0[field][line] = random.pick(&[OFFERED.0[field][line], u16::MAX, CAPTION_525]),
        2 => {}
        kind => {
            for (set, offered) in lines.0.iter_mut().flatten().zip(OFFERED.sets()) {
                *set = match (kind, random.below(3)) {
                    (3, 0) => offered,
                    (3, _) => 0,
                    (_, 0) => some_of(random, offered),
                    (_, 1) => random.word() as u16,
                    _ => random.pick(&[0, u16::MAX, ALL, 2]),
                };
            }
        }
    }
    lines
}

/// One service of a set that has some.
fn one_of(random: &mut Random, set: u16) -> u32 {
    let from = random.below(SERVICES.len());
    let mut turned = (0..SERVICES.len()).map(|place| SERVICES[(from + place) % SERVICES.len()]);
    turned.find(|service| set & service != 0).unwrap_or(CAPTION_525).into()
}

/// Heads of records for these lines, one at most for each, in any order.
fn heads(random: &mut Random, lines: &Lines, percent: usize) -> Vec<[u32; 3]> {
    let mut heads = Vec::new();
    for (place, set) in lines.sets().enumerate() {
        if set != 0 && random.chance(percent) {
            heads.push([one_of(random, set), place as u32 / 24, place as u32 % 24]);
        }
    }
    for place in 1..heads.len() {
        heads.swap(place, random.below(place + 1));
    }
    heads
}

/// A whole frame: some of the lines that were negotiated, all, or none.
pub fn whole(random: &mut Random, lines: &Lines) -> Frame {
    let percent = random.pick(&[0, 5, 20, 50, 100, 100]);
    Frame::records(heads(random, lines, percent), random.draw())
}

/// A frame that is flawed, most of the time: what was negotiated before may happen to be so still.
pub fn flawed(random: &mut Random, lines: &Lines, earlier: &Lines) -> Frame {
    let mut frame = whole(random, lines);
    match random.below(12) {
        0 => frame.length += random.pick(&[1, 32, 63]),
        1 => frame.length = frame.length.saturating_sub(random.pick(&[1, 32, 63])),
        // Bytes behind the records that are none.
        2 => frame.length += random.pick(&[64, 128, 4096]),
        3 => return Frame::plain(64 * random.below(50), random.draw()),
        _ => {
            let head = flawed_head(random, lines, earlier, &frame.heads);
            frame.heads.insert(random.below(frame.heads.len() + 1), head);
            frame.length += 64;
        }
    }
    frame
}

/// A head with something wrong in it.
fn flawed_head(random: &mut Random, lines: &Lines, earlier: &Lines, heads: &[[u32; 3]]) -> [u32; 3] {
    let mut good = |lines| self::heads(random, lines, 50).first().copied().unwrap_or([CAPTION_525.into(), 0, 21]);
    let (before, [service, field, line]) = (good(earlier), good(lines));
    match random.below(12) {
        0 | 1 if !heads.is_empty() => {
            // A line again, by the same service or by another that shares it.
            let [_, field, line] = heads[random.below(heads.len())];
            [one_of(random, lines.0[field as usize][line as usize]), field, line]
        }
        2 => [0, field, line],
        3 => [service | u32::from(random.pick(&SERVICES)), field, line],
        4 => [random.pick(&[2, 0x8000, 0x400 << 1, service | 0x1_0000, service | 2, service << 16]), field, line],
        5 => [service, random.pick(&[1 - field, 2, 3, field | 0x100, field | 0x8000_0000, u32::MAX]), line],
        6 => [service, field, random.pick(&[0, 6, 22, 23, 24, 25, line + 24, line | 0x100, u32::MAX])],
        7 => [random.pick(&SERVICES).into(), field, line],
        8..=10 => before,
        _ => [random.pick(&SERVICES).into(), random.below(2) as u32, random.below(24) as u32],
    }
}
