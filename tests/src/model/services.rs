//! Sliced VBI: the services that the device offers, what a wish gets of them, and when a frame of lines is whole.

use super::bytes::{half, put, put_half, word};
use crate::recorder::CAPTIONS;

pub const TELETEXT_B: u16 = 0x0001;
pub const VPS: u16 = 0x0400;
pub const CAPTION_525: u16 = 0x1000;
pub const WSS_625: u16 = 0x4000;

pub const SERVICES: [u16; 4] = [TELETEXT_B, VPS, CAPTION_525, WSS_625];

/// Bytes of a record: service, field, line, a reserved word, and 48 bytes of payload.
pub const RECORD: usize = 64;

/// A set of services for each line, 0 to 23, of the two fields.
#[derive(Clone, Copy, Default, PartialEq, Debug)]
pub struct Lines(pub [[u16; 24]; 2]);

/// Every service on the lines that the table of services lists for it. Lines 16 and 21 are shared.
pub const OFFERED: Lines = offered();

const fn offered() -> Lines {
    let mut lines = [[0; 24]; 2];
    let mut line = 7;
    while line <= 22 {
        lines[0][line] = TELETEXT_B;
        lines[1][line] = TELETEXT_B;
        line += 1;
    }
    lines[0][16] |= VPS;
    lines[0][21] |= CAPTION_525;
    lines[1][21] |= CAPTION_525;
    lines[0][23] |= WSS_625;
    Lines(lines)
}

impl Lines {
    /// One set after the other, the first field first.
    pub fn sets(&self) -> impl Iterator<Item = u16> + '_ {
        self.0.iter().flatten().copied()
    }

    /// All services that any line carries.
    #[inline]
    pub fn union(&self) -> u16 {
        self.sets().fold(0, |all, set| all | set)
    }

    /// A record for each line that carries something.
    #[inline]
    pub fn io_size(&self) -> u32 {
        self.sets().map(|set| if set == 0 { 0 } else { RECORD as u32 }).sum()
    }

    /// What S_FMT and TRY_FMT make of a wish: the services of the asked set on all lines that have them, or, if that set is
    /// empty, what the asked lines have in common with those offered.
    #[inline]
    pub fn negotiated(wish: &[u8; 204]) -> Lines {
        let set = half(wish, 4);
        let mut lines = OFFERED;
        for (place, offered) in lines.0.iter_mut().flatten().enumerate() {
            *offered &= if set == 0 { half(wish, 6 + 2 * place) } else { set };
        }
        lines
    }

    /// The union, the 48 sets and two zero bytes behind them: 100 bytes.
    #[inline]
    pub fn write(&self, bytes: &mut [u8], at: usize) {
        put_half(bytes, at, self.union());
        for (place, set) in self.sets().enumerate() {
            put_half(bytes, at + 2 + 2 * place, set);
        }
        put_half(bytes, at + 98, 0);
    }

    /// The answer of the three format requests: type 6, the sliced format, then zeros.
    #[inline]
    pub fn answer(&self, argument: &mut [u8; 204]) {
        put(argument, 0, CAPTIONS);
        self.write(argument, 4);
        put(argument, 104, self.io_size());
        argument[108..].fill(0);
    }

    /// True if a frame is records of these lines, each of a service that its line carries, and no line of a field twice.
    pub fn carry(&self, frame: &[u8]) -> bool {
        let mut seen = [[false; 24]; 2];
        frame.len().is_multiple_of(RECORD)
            && frame.chunks_exact(RECORD).all(|record| {
                let (id, field, line) = (word(record, 0), word(record, 4) as usize, word(record, 8) as usize);
                let negotiated = field < 2 && line < 24 && is_one_of(id, self.0[field][line]);
                negotiated && !std::mem::replace(&mut seen[field][line], true)
            })
    }
}

/// True if an id is exactly one of the four services, and this set has it.
#[inline]
fn is_one_of(id: u32, set: u16) -> bool {
    SERVICES.iter().any(|service| id == u32::from(*service) && set & service != 0)
}
