//! Caption lines embedded in the film, in the packing of ivtv: a block opens with four letters; two masks tell which lines
//! are present, unless all are; then come these lines, in the order of their bits.

use super::bytes::{put, word};
use super::numbers::{DONE, EINVAL};
use super::services::{CAPTION_525, RECORD, TELETEXT_B, VPS, WSS_625};

/// Lines that a block can have: 6 to 23 of the first field, then the same of the second.
pub const MOST: usize = 36;
const OF_FIELD: usize = MOST / 2;
const FIRST: usize = 6;

/// Bytes of a line: its identifier and its data.
pub const LINE: usize = 1 + DATA;
const DATA: usize = 42;

/// The bits of all lines.
const ALL: u64 = (1 << MOST) - 1;

/// Bytes of a block of so many lines; 0 if there cannot be so many.
pub fn block_length(lines: usize) -> usize {
    match lines {
        MOST => 4 + LINE * MOST,
        0..MOST => 12 + LINE * lines,
        _ => 0,
    }
}

#[derive(Clone, Copy)]
enum Service {
    TeletextB,
    Vps,
    Caption525,
    Wss625,
}

impl Service {
    #[inline]
    fn of_id(id: u32) -> Option<Service> {
        match u16::try_from(id).ok()? {
            TELETEXT_B => Some(Service::TeletextB),
            VPS => Some(Service::Vps),
            CAPTION_525 => Some(Service::Caption525),
            WSS_625 => Some(Service::Wss625),
            _ => None,
        }
    }

    #[inline]
    fn id(self) -> u32 {
        u32::from(match self {
            Service::TeletextB => TELETEXT_B,
            Service::Vps => VPS,
            Service::Caption525 => CAPTION_525,
            Service::Wss625 => WSS_625,
        })
    }

    #[inline]
    fn of_identifier(identifier: u8) -> Option<Service> {
        match identifier {
            1 => Some(Service::TeletextB),
            4 => Some(Service::Caption525),
            5 => Some(Service::Wss625),
            7 => Some(Service::Vps),
            _ => None,
        }
    }

    #[inline]
    fn identifier(self) -> u8 {
        match self {
            Service::TeletextB => 1,
            Service::Caption525 => 4,
            Service::Wss625 => 5,
            Service::Vps => 7,
        }
    }

    /// Makes a line of this service and of a payload, of which it takes what the service carries.
    #[inline]
    fn put(self, line: &mut [u8; LINE], payload: &[u8]) {
        line[0] = self.identifier();
        match self {
            Service::TeletextB => carry::<42>(&mut line[1..], payload),
            Service::Vps => carry::<13>(&mut line[1..], payload),
            Service::Caption525 | Service::Wss625 => carry::<2>(&mut line[1..], payload),
        }
    }

    /// The service of a line, if it is known and all that it does not carry is zero.
    #[inline]
    fn of_line(line: &[u8; LINE]) -> Option<Service> {
        let service = Service::of_identifier(line[0])?;
        let zeroed = match service {
            Service::TeletextB => true,
            Service::Vps => is_zero(&line[1 + 13..]),
            Service::Caption525 | Service::Wss625 => is_zero(&line[1 + 2..]),
        };
        zeroed.then_some(service)
    }
}

/// So many bytes of a payload, then zeros. A length that the compiler knows makes a few moves of it.
#[inline]
fn carry<const LENGTH: usize>(data: &mut [u8], payload: &[u8]) {
    let (carried, rest) = data.split_at_mut(LENGTH);
    carried.copy_from_slice(&payload[..LENGTH]);
    rest.fill(0);
}

/// All bytes together, for there are few, and most of the time they are zero.
#[inline]
fn is_zero(bytes: &[u8]) -> bool {
    bytes.iter().fold(0, |all, byte| all | byte) == 0
}

/// The bit of a line of a field.
#[inline]
fn bit_of(field: u32, line: u32) -> Option<usize> {
    let line = (line as usize).checked_sub(FIRST).filter(|line| *line < OF_FIELD)?;
    match field {
        0 => Some(line),
        1 => Some(OF_FIELD + line),
        _ => None,
    }
}

/// Field and line of a bit.
#[inline]
fn place_of(bit: usize) -> (u32, u32) {
    ((bit / OF_FIELD) as u32, (FIRST + bit % OF_FIELD) as u32)
}

/// The places of the bits of a set, the lowest first.
#[inline]
fn bits(mut set: u64) -> impl Iterator<Item = usize> {
    std::iter::from_fn(move || {
        let bit = (set != 0).then(|| set.trailing_zeros() as usize);
        set &= set.wrapping_sub(1);
        bit
    })
}

/// The bit and the service of a record, if it is a line.
#[inline]
fn read(record: &[u8; RECORD]) -> Option<(usize, Service)> {
    Some((bit_of(word(record, 4), word(record, 8))?, Service::of_id(word(record, 0))?))
}

/// Writes what a block with these lines opens with; gives back the room of the lines.
#[inline]
fn open(block: &mut [u8], present: u64) -> &mut [u8] {
    if present == ALL {
        block[..4].copy_from_slice(b"ITV0");
        return &mut block[4..];
    }
    block[..4].copy_from_slice(b"itv0");
    // The first mask holds the lower bits, so that the two are one word of 64 bits.
    block[4..12].copy_from_slice(&present.to_le_bytes());
    &mut block[12..]
}

/// Packs records of 64 bytes, in any order: 0, or 22 and nothing written.
pub fn pack(lines: &[u8], block: &mut [u8]) -> u32 {
    let (records, part) = lines.as_chunks::<RECORD>();
    if !part.is_empty() || block.len() != block_length(records.len()) {
        return EINVAL;
    }
    // For each bit, which record has its line, and the service of that. Of more than 36 records two have the same line, so
    // that none come through by the length 0.
    let mut slots = [(0, Service::TeletextB); MOST];
    let mut present = 0;
    for (place, record) in records.iter().enumerate() {
        match read(record) {
            Some((bit, service)) if present >> bit & 1 == 0 => {
                present |= 1 << bit;
                slots[bit] = (place as u8, service);
            }
            _ => return EINVAL,
        }
    }
    let (packed, _) = open(block, present).as_chunks_mut::<LINE>();
    for (line, bit) in packed.iter_mut().zip(bits(present)) {
        let (place, service) = slots[bit];
        service.put(line, &records[usize::from(place)][16..]);
    }
    DONE
}

/// The lines that a block says it has, as bits, and their bytes.
#[inline]
fn opened(block: &[u8]) -> Option<(u64, &[[u8; LINE]])> {
    let (present, lines) = match block.split_first_chunk()? {
        (b"ITV0", lines) => (ALL, lines),
        (b"itv0", rest) => {
            let (masks, lines) = rest.split_first_chunk()?;
            // All bits are told by the other opening, and there are none above them.
            (Some(u64::from_le_bytes(*masks)).filter(|present| *present < ALL)?, lines)
        }
        _ => return None,
    };
    let (packed, part) = lines.as_chunks();
    (part.is_empty() && packed.len() == present.count_ones() as usize).then_some((present, packed))
}

/// Reads a block into records of 64 bytes, in the order of their bits: 0, or 22 and nothing written.
pub fn unpack(block: &[u8], lines: &mut [u8]) -> u32 {
    let Some((present, packed)) = opened(block).filter(|(_, packed)| lines.len() == RECORD * packed.len()) else {
        return EINVAL;
    };
    let mut services = [Service::TeletextB; MOST];
    for (line, service) in packed.iter().zip(&mut services) {
        match Service::of_line(line) {
            Some(known) => *service = known,
            None => return EINVAL,
        }
    }
    let (records, _) = lines.as_chunks_mut::<RECORD>();
    for (((record, line), service), bit) in records.iter_mut().zip(packed).zip(&services).zip(bits(present)) {
        let (field, number) = place_of(bit);
        for (at, told) in [(0, service.id()), (4, field), (8, number), (12, 0)] {
            put(record, at, told);
        }
        record[16..16 + DATA].copy_from_slice(&line[1..]);
        record[16 + DATA..].fill(0);
    }
    DONE
}
