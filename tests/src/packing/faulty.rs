//! Copies of the model's packing with one fault each. The tests show that every one of them is found.

use super::{Model, Packer};
use crate::model::bytes::{put, word};
use crate::model::packing::{block_length, LINE, MOST};
use crate::model::services::{OFFERED, RECORD};

#[derive(Clone, Copy, Debug, PartialEq)]
pub enum Fault {
    PayloadKept,
    OrderAsGiven,
    SecondFieldFrom17,
    MasksBigEndian,
    MasksWithAllLines,
    WssForCaption,
    LineTwiceTaken,
    HighFieldTaken,
    LinesRunOn,
    LowestServiceTaken,
    HighHalfIgnored,
    PartRecordIgnored,
    OfferedLinesOnly,
    ReservedLookedAt,
    EmptyRefused,
    LongBlockFilled,
    RefusalWritesOpening,
    RefusalReadsFirst,
    FillBytesTaken,
    LineWithoutBitTaken,
    NotZeroedTaken,
    LastByteNotLookedAt,
    AllBitsTaken,
    HighBitsIgnored,
    UnknownIdentifierTaken,
    CaseIgnored,
    ReservedKept,
    TailKept,
    LongOutputFilled,
    LengthAboveAll,
}

pub const FAULTS: [Fault; 30] = [
    Fault::PayloadKept,
    Fault::OrderAsGiven,
    Fault::SecondFieldFrom17,
    Fault::MasksBigEndian,
    Fault::MasksWithAllLines,
    Fault::WssForCaption,
    Fault::LineTwiceTaken,
    Fault::HighFieldTaken,
    Fault::LinesRunOn,
    Fault::LowestServiceTaken,
    Fault::HighHalfIgnored,
    Fault::PartRecordIgnored,
    Fault::OfferedLinesOnly,
    Fault::ReservedLookedAt,
    Fault::EmptyRefused,
    Fault::LongBlockFilled,
    Fault::RefusalWritesOpening,
    Fault::RefusalReadsFirst,
    Fault::FillBytesTaken,
    Fault::LineWithoutBitTaken,
    Fault::NotZeroedTaken,
    Fault::LastByteNotLookedAt,
    Fault::AllBitsTaken,
    Fault::HighBitsIgnored,
    Fault::UnknownIdentifierTaken,
    Fault::CaseIgnored,
    Fault::ReservedKept,
    Fault::TailKept,
    Fault::LongOutputFilled,
    Fault::LengthAboveAll,
];

pub struct Faulty(pub Fault);

/// Field and line of a record.
fn place(record: &[u8]) -> (u32, u32) {
    (word(record, 4), word(record, 8))
}

/// Where the lines of a block begin: behind masks, if there are any.
fn body(block: &[u8]) -> usize {
    if block.starts_with(b"itv0") {
        block.len().min(12)
    } else {
        block.len().min(4)
    }
}

impl Packer for Faulty {
    fn pack(&self, lines: &[u8], block: &mut [u8]) -> u32 {
        if self.refuses(lines) {
            return 22;
        }
        let records = lines.len() / RECORD;
        if self.0 == Fault::MasksWithAllLines && records == MOST {
            return pack_with_masks(lines, block);
        }
        let mut taken = lines.to_vec();
        self.before_pack(&mut taken);
        let end = match self.0 {
            Fault::LongBlockFilled => block.len().min(block_length(records)),
            Fault::LineTwiceTaken if taken.len() < lines.len() => block.len().min(block_length(taken.len() / RECORD)),
            _ => block.len(),
        };
        let number = Model.pack(&taken, &mut block[..end]);
        match number {
            0 => self.after_pack(lines, block),
            _ if self.0 == Fault::RefusalWritesOpening && block.len() >= 12 => block[..4].copy_from_slice(b"itv0"),
            _ => {}
        }
        number
    }

    fn unpack(&self, block: &[u8], lines: &mut [u8]) -> u32 {
        let mut taken = block.to_vec();
        self.before_unpack(&mut taken);
        let before = lines.to_vec();
        let end = match self.0 {
            Fault::LongOutputFilled => lines.len().min(taken.len().saturating_sub(body(&taken)) / LINE * RECORD),
            _ => lines.len(),
        };
        let number = Model.unpack(&taken, &mut lines[..end]);
        match number {
            0 => self.after_unpack(&before, lines),
            // Each line is written before the next one is looked at.
            _ if self.0 == Fault::RefusalReadsFirst && lines.len() >= RECORD => lines[..RECORD].fill(0),
            _ => {}
        }
        number
    }

    fn block_length(&self, lines: usize) -> usize {
        match self.0 {
            Fault::LengthAboveAll if lines > MOST => LINE.wrapping_mul(lines).wrapping_add(12),
            Fault::MasksWithAllLines if lines == MOST => 12 + LINE * MOST,
            _ => Model.block_length(lines),
        }
    }
}

/// All lines, behind the opening of all and masks: 1,560 bytes.
fn pack_with_masks(lines: &[u8], block: &mut [u8]) -> u32 {
    let mut packed = vec![0; block_length(MOST)];
    let number = Model.pack(lines, &mut packed);
    packed.splice(4..4, [255, 255, 255, 255, 15, 0, 0, 0]);
    if number != 0 || block.len() != packed.len() {
        return 22;
    }
    block.copy_from_slice(&packed);
    0
}

impl Faulty {
    /// Lines that a fault refuses at once.
    fn refuses(&self, lines: &[u8]) -> bool {
        let offered = |record: &[u8]| {
            let (field, line) = place(record);
            let set = OFFERED.0.get(field as usize).and_then(|lines| lines.get(line as usize));
            set.is_some_and(|set| u32::from(*set) & word(record, 0) != 0)
        };
        match self.0 {
            Fault::EmptyRefused => lines.is_empty(),
            Fault::OfferedLinesOnly => !lines.chunks_exact(RECORD).all(offered),
            Fault::ReservedLookedAt => lines.chunks_exact(RECORD).any(|record| word(record, 12) != 0),
            _ => false,
        }
    }

    /// The lines that a fault takes others for.
    fn before_pack(&self, lines: &mut Vec<u8>) {
        match self.0 {
            Fault::PartRecordIgnored => lines.truncate(lines.len() / RECORD * RECORD),
            Fault::LineTwiceTaken if lines.len().is_multiple_of(RECORD) => {
                let mut records: Vec<Vec<u8>> = lines.chunks(RECORD).map(<[u8]>::to_vec).collect();
                records.sort_by_key(|record| place(record));
                records.dedup_by_key(|record| place(record));
                *lines = records.concat();
            }
            _ => {}
        }
        for record in lines.chunks_exact_mut(RECORD) {
            let id = word(record, 0);
            match (self.0, place(record)) {
                (Fault::LowestServiceTaken, _) => put(record, 0, id & id.wrapping_neg()),
                (Fault::HighHalfIgnored, _) => put(record, 0, id & 0xffff),
                (Fault::HighFieldTaken, (field @ 2.., _)) => put(record, 4, field & 1),
                // Only the sum of both is looked at, so that the lines of one field go on in the other.
                (Fault::LinesRunOn, (0, line @ 24..=41)) => {
                    put(record, 4, 1);
                    put(record, 8, line - 18);
                }
                (Fault::LinesRunOn, (1, line @ 0..=5)) => {
                    put(record, 4, 0);
                    put(record, 8, line + 18);
                }
                _ => {}
            }
        }
    }

    /// What a fault changes in a block that was written.
    fn after_pack(&self, lines: &[u8], block: &mut [u8]) {
        let start = body(block);
        match self.0 {
            Fault::PayloadKept => {
                let mut records: Vec<&[u8]> = lines.chunks(RECORD).collect();
                records.sort_by_key(|record| place(record));
                for (line, record) in block[start..].chunks_mut(LINE).zip(records) {
                    line[1..].copy_from_slice(&record[16..16 + LINE - 1]);
                }
            }
            Fault::OrderAsGiven => {
                let packed = block[start..].to_vec();
                let lower = |record: &[u8]| lines.chunks(RECORD).filter(|other| place(other) < place(record)).count();
                for (line, record) in block[start..].chunks_mut(LINE).zip(lines.chunks(RECORD)) {
                    line.copy_from_slice(&packed[LINE * lower(record)..][..LINE]);
                }
            }
            Fault::SecondFieldFrom17 if start == 12 => {
                let present = u64::from(word(block, 4)) | u64::from(word(block, 8)) << 32;
                let (first, second) = (present & 0x3ffff, present >> 18);
                block[4..12].copy_from_slice(&(first | second << 17).to_le_bytes());
            }
            Fault::MasksBigEndian if start == 12 => {
                block[4..8].reverse();
                block[8..12].reverse();
            }
            Fault::WssForCaption => swap_identifiers(block),
            _ => {}
        }
    }

    /// The block that a fault takes another for.
    fn before_unpack(&self, block: &mut Vec<u8>) {
        let start = body(block);
        match self.0 {
            Fault::FillBytesTaken => {
                // The end of a block may have been filled to a multiple of four.
                let over = (block.len() - start) % LINE;
                let filled = block.len().is_multiple_of(4) && over < 4;
                block.truncate(block.len() - if filled { over } else { 0 });
            }
            Fault::LineWithoutBitTaken if block.len() == 12 + LINE && block[4..12] == [0; 8] => block.truncate(12),
            Fault::AllBitsTaken if block.len() > 12 && block[..12] == *b"itv0\xff\xff\xff\xff\x0f\0\0\0" => {
                block.splice(..12, *b"ITV0");
            }
            Fault::HighBitsIgnored if start == 12 => {
                block[8] &= 15;
                block[9..12].fill(0);
            }
            Fault::CaseIgnored if block.len() >= 4 && block[..4].eq_ignore_ascii_case(b"itv0") => {
                let opening = if block.len() == block_length(MOST) { b"ITV0" } else { b"itv0" };
                block[..4].copy_from_slice(opening);
            }
            Fault::WssForCaption => swap_identifiers(block),
            _ => {}
        }
        let start = body(block);
        for line in block[start..].chunks_exact_mut(LINE) {
            match (self.0, line[0]) {
                (Fault::NotZeroedTaken, 4 | 5) => line[3..].fill(0),
                (Fault::NotZeroedTaken, 7) => line[14..].fill(0),
                (Fault::LastByteNotLookedAt, 4 | 5 | 7) => line[LINE - 1] = 0,
                (Fault::UnknownIdentifierTaken, 2 | 3 | 6) => line[0] = 1,
                _ => {}
            }
        }
    }

    /// What a fault leaves in records that were read.
    fn after_unpack(&self, before: &[u8], lines: &mut [u8]) {
        for (record, before) in lines.chunks_mut(RECORD).zip(before.chunks(RECORD)) {
            match self.0 {
                Fault::ReservedKept => record[12..16].copy_from_slice(&before[12..16]),
                Fault::TailKept => record[58..].copy_from_slice(&before[58..]),
                _ => {}
            }
        }
    }
}

/// The writer and the reader have the two the wrong way round, so that what is written is read.
fn swap_identifiers(block: &mut [u8]) {
    let start = body(block);
    for line in block[start..].chunks_mut(LINE) {
        line[0] = match line[0] {
            4 => 5,
            5 => 4,
            other => other,
        };
    }
}
