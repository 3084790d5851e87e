//! What is wrong with lines that are to be packed, and with a block that is to be read; and what either says. It says the
//! same as the model, in another way: so the model is tested too, and it is known which flaws were met.

use super::{Call, Way};
use crate::model::bytes::word;
use std::ops::Range;

/// What kind of whole input it is, or its first flaw.
#[derive(Clone, Copy, Debug, PartialEq)]
pub enum Judged {
    NoLine,
    OneLine,
    SomeLines,
    AllButOne,
    AllLines,
    PartRecord,
    NoService,
    TwoServices,
    UnknownService,
    Field,
    LineTooLow,
    LineTooHigh,
    LineTwice,
    /// Too short for its letters, or for its masks.
    NoHead,
    Opening,
    /// A mask has a bit above those of the lines.
    HighBit,
    /// The masks tell of all lines, which the other opening does.
    AllBits,
    BlockShort,
    BlockLong,
    Identifier,
    /// Bytes beyond what the service carries.
    VpsNotZero,
    CaptionNotZero,
    WssNotZero,
    OutputShort,
    OutputLong,
}

/// What can be said of either.
const WHOLE: [(Judged, &str); 5] = [
    (Judged::NoLine, "no line"),
    (Judged::OneLine, "one line"),
    (Judged::SomeLines, "2 to 34 lines"),
    (Judged::AllButOne, "35 lines"),
    (Judged::AllLines, "36 lines"),
];

/// Of what is to be written.
const WRITTEN: [(Judged, &str); 10] = [
    (Judged::PartRecord, "part of a record"),
    (Judged::NoService, "no service"),
    (Judged::TwoServices, "two services"),
    (Judged::UnknownService, "unknown service"),
    (Judged::Field, "field"),
    (Judged::LineTooLow, "line below 6"),
    (Judged::LineTooHigh, "line above 23"),
    (Judged::LineTwice, "a line twice"),
    (Judged::OutputShort, "output too short"),
    (Judged::OutputLong, "output too long"),
];

/// Of what is to be read.
const READ: [(Judged, &str); 12] = [
    (Judged::NoHead, "no whole head"),
    (Judged::Opening, "opening"),
    (Judged::HighBit, "a high bit"),
    (Judged::AllBits, "all bits"),
    (Judged::BlockShort, "block too short"),
    (Judged::BlockLong, "block too long"),
    (Judged::Identifier, "identifier"),
    (Judged::VpsNotZero, "VPS not zeroed"),
    (Judged::CaptionNotZero, "caption not zeroed"),
    (Judged::WssNotZero, "WSS not zeroed"),
    (Judged::OutputShort, "output too short"),
    (Judged::OutputLong, "output too long"),
];

/// All that can be said of the input of a call this way.
pub fn all(way: Way) -> impl Iterator<Item = (Judged, &'static str)> {
    let flaws: &[_] = if way == Way::Write { &WRITTEN } else { &READ };
    WHOLE.into_iter().chain(flaws.iter().copied())
}

impl Judged {
    pub fn is_whole(self) -> bool {
        WHOLE.iter().any(|(whole, _)| *whole == self)
    }

    fn of_count(lines: usize) -> Judged {
        match lines {
            0 => Judged::NoLine,
            1 => Judged::OneLine,
            2..=34 => Judged::SomeLines,
            35 => Judged::AllButOne,
            _ => Judged::AllLines,
        }
    }

    /// Of an output, if it has not the length that it should have.
    fn of_output(room: usize, wanted: usize) -> Option<Judged> {
        match room {
            _ if room < wanted => Some(Judged::OutputShort),
            _ if room > wanted => Some(Judged::OutputLong),
            _ => None,
        }
    }
}

/// A service: its bit, its identifier, the bytes that it carries, and what it is if there are more.
struct Service {
    id: u32,
    identifier: u8,
    carried: usize,
    more: Option<Judged>,
}

const SERVICES: [Service; 4] = [
    Service { id: 0x0001, identifier: 1, carried: 42, more: None },
    Service { id: 0x0400, identifier: 7, carried: 13, more: Some(Judged::VpsNotZero) },
    Service { id: 0x1000, identifier: 4, carried: 2, more: Some(Judged::CaptionNotZero) },
    Service { id: 0x4000, identifier: 5, carried: 2, more: Some(Judged::WssNotZero) },
];

/// What can be told of a line: field and line, the service, and the bytes that this carries.
pub type Said<'a> = (u32, u32, u32, &'a [u8]);

/// The 36 lines by field and number, in the order of their bits.
pub fn places() -> impl Iterator<Item = (u32, u32)> {
    (0..2).flat_map(|field| (6..24).map(move |line| (field, line)))
}

pub fn judge(call: &Call) -> Judged {
    match call.way {
        Way::Write => judge_records(&call.input, call.room),
        Way::Read => judge_block(&call.input, call.room),
    }
}

/// A record's own flaw.
fn flaw_of_record(record: &[u8]) -> Option<Judged> {
    let [id, field, line] = [0, 4, 8].map(|at| word(record, at));
    if id == 0 {
        return Some(Judged::NoService);
    }
    if SERVICES.iter().all(|service| service.id != id) {
        return Some(if id & !0x5401 == 0 { Judged::TwoServices } else { Judged::UnknownService });
    }
    match (field, line) {
        (2.., _) => Some(Judged::Field),
        (_, ..6) => Some(Judged::LineTooLow),
        (_, 24..) => Some(Judged::LineTooHigh),
        _ => None,
    }
}

/// What there is to say of lines that are to be written to an output of this length.
pub fn judge_records(lines: &[u8], room: usize) -> Judged {
    if !lines.len().is_multiple_of(64) {
        return Judged::PartRecord;
    }
    if let Some(flaw) = lines.chunks(64).find_map(flaw_of_record) {
        return flaw;
    }
    let mut numbers: Vec<(u32, u32)> = lines.chunks(64).map(|record| (word(record, 4), word(record, 8))).collect();
    numbers.sort_unstable();
    if numbers.windows(2).any(|two| two[0] == two[1]) {
        return Judged::LineTwice;
    }
    let head = if numbers.len() == 36 { 4 } else { 12 };
    Judged::of_output(room, head + 43 * numbers.len()).unwrap_or(Judged::of_count(numbers.len()))
}

/// The two masks of a block, if it has them: for each of 64 places, the 36 lines first, whether its bit is set.
fn masks(block: &[u8]) -> Option<Vec<bool>> {
    let bits = |mask: u32| (0..32).map(move |bit| mask >> bit & 1 == 1);
    block.starts_with(b"itv0").then(|| bits(word(block, 4)).chain(bits(word(block, 8))).collect())
}

/// The lines that a block should have by its head, and the bytes in which they should stand.
fn expected(block: &[u8]) -> Vec<((u32, u32), Range<usize>)> {
    let masks = masks(block);
    let start = if masks.is_some() { 12 } else { 4 };
    let is_there = |place: usize| masks.as_ref().is_none_or(|masks| masks[place]);
    let there = places().enumerate().filter(|(place, _)| is_there(*place));
    there.enumerate().map(|(rank, (_, place))| (place, start + 43 * rank..start + 43 * (rank + 1))).collect()
}

/// What there is to say of a block that is to be read into an output of this length.
pub fn judge_block(block: &[u8], room: usize) -> Judged {
    match block.get(..4) {
        None => return Judged::NoHead,
        Some(b"itv0") if block.len() < 12 => return Judged::NoHead,
        Some(b"itv0" | b"ITV0") => {}
        Some(_) => return Judged::Opening,
    }
    if let Some(masks) = masks(block) {
        let (lines, above) = masks.split_at(36);
        if above.contains(&true) {
            return Judged::HighBit;
        }
        if !lines.contains(&false) {
            return Judged::AllBits;
        }
    }
    let lines = expected(block);
    let end = lines.last().map_or(12, |(_, bytes)| bytes.end);
    if block.len() != end {
        return if block.len() < end { Judged::BlockShort } else { Judged::BlockLong };
    }
    for (_, bytes) in &lines {
        let line = &block[bytes.clone()];
        match SERVICES.iter().find(|service| service.identifier == line[0]) {
            None => return Judged::Identifier,
            Some(Service { carried, more: Some(more), .. }) if line[1 + carried..] != [0; 42][*carried..] => {
                return *more
            }
            Some(_) => {}
        }
    }
    Judged::of_output(room, 64 * lines.len()).unwrap_or(Judged::of_count(lines.len()))
}

/// What good records say, sorted by field and line.
pub fn said_by_records(lines: &[u8]) -> Vec<Said<'_>> {
    let mut said: Vec<Said> = lines.chunks(64).map(said_by_record).collect();
    said.sort_unstable();
    said
}

fn said_by_record(record: &[u8]) -> Said<'_> {
    let [id, field, line] = [0, 4, 8].map(|at| word(record, at));
    let carried = SERVICES.iter().find(|service| service.id == id).map_or(0, |service| service.carried);
    (field, line, id, &record[16..16 + carried])
}

/// What a good block says.
pub fn said_by_block(block: &[u8]) -> Vec<Said<'_>> {
    let said = |((field, line), bytes): ((u32, u32), Range<usize>)| {
        let service = SERVICES.iter().find(|service| service.identifier == block[bytes.start])?;
        Some((field, line, service.id, &block[bytes.start + 1..bytes.start + 1 + service.carried]))
    };
    expected(block).into_iter().filter_map(said).collect()
}

/// True if records stand in the order of their bits, and all that their lines do not say is zero.
pub fn is_plain(lines: &[u8]) -> bool {
    let rest_is_zero = |record: &[u8]| {
        let (_, _, _, carried) = said_by_record(record);
        word(record, 12) == 0 && record[16 + carried.len()..].iter().all(|byte| *byte == 0)
    };
    let in_order = lines.chunks(64).is_sorted_by_key(|record| (word(record, 4), word(record, 8)));
    in_order && lines.chunks(64).all(rest_is_zero)
}
