//! What a map or unmap finds, by what QUERYBUF tells of the buffers, and what maps lead to.

use crate::ask::ask;
use crate::model::bytes::word;
use crate::model::words::{QUERYBUF, QUERYCAP};
use crate::recorder::Recorder;
use crate::session::{Change, Mapping};

/// What stands at the offset and length of a call.
#[derive(Clone, Copy, Debug, PartialEq)]
pub enum Found {
    Closed,
    NoBuffer,
    Unmapped,
    Mapped,
}

impl Found {
    /// By calls that change nothing.
    pub fn by<R: Recorder>(device: &mut R, mapping: &Mapping) -> Found {
        if ask(device, QUERYCAP, &[]).0 != 0 {
            return Found::Closed;
        }
        let answers = (0..32).map(|index| ask(device, QUERYBUF, &[(0, index), (4, mapping.kind)]));
        let mut answers = answers.take_while(|(number, _)| *number == 0).map(|(_, answer)| answer);
        match answers.find(|answer| [word(answer, 52), word(answer, 56)] == [mapping.offset, mapping.length]) {
            None => Found::NoBuffer,
            Some(answer) if word(&answer, 12) & 1 == 0 => Found::Unmapped,
            Some(_) => Found::Mapped,
        }
    }

    /// The numbers that a call can give that finds this.
    pub fn numbers(self, change: Change) -> &'static [u32] {
        match (self, change) {
            (Found::Closed | Found::NoBuffer, _) | (Found::Unmapped, Change::Unmap) => &[22],
            (Found::Unmapped, Change::Map) | (Found::Mapped, Change::Unmap) => &[0],
            (Found::Mapped, Change::Map) => &[0, 75],
        }
    }
}

/// What is seen of maps beside the numbers and the flags.
#[derive(Clone, Copy, PartialEq)]
pub enum Mapped {
    MapClosed,
    MapNoBuffer,
    MapAgain,
    UnmapClosed,
    UnmapNoBuffer,
    UnmapOfNone,
    /// REQBUFS refused because of a map, with a count of 0 and with another while no run is on, and with 0 in a run.
    NoneRefused,
    SomeRefused,
    RunGoesOn,
    /// REQBUFS of another kind of memory while a buffer is mapped: 22.
    OtherMemory,
    /// REQBUFS accepted while a buffer of the other stream is mapped.
    OtherMapped,
    /// A run stopped, and after it the flag of a map that was made before.
    Stopped,
    ToldAfterStop,
    /// A frame stored in a buffer that is mapped.
    Stored,
    /// A device opened anew over one with maps.
    Forgotten,
}

pub const MAPPED: [(Mapped, &str); 15] = [
    (Mapped::MapClosed, "map, closed"),
    (Mapped::MapNoBuffer, "map, no buffer"),
    (Mapped::MapAgain, "map again"),
    (Mapped::UnmapClosed, "unmap, closed"),
    (Mapped::UnmapNoBuffer, "unmap, no buffer"),
    (Mapped::UnmapOfNone, "unmap, no map"),
    (Mapped::NoneRefused, "REQBUFS 0 refused"),
    (Mapped::SomeRefused, "REQBUFS of some refused"),
    (Mapped::RunGoesOn, "REQBUFS 0 refused in run"),
    (Mapped::OtherMemory, "REQBUFS of other memory"),
    (Mapped::OtherMapped, "REQBUFS beside the other's map"),
    (Mapped::Stopped, "STREAMOFF"),
    (Mapped::ToldAfterStop, "told after STREAMOFF"),
    (Mapped::Stored, "stored"),
    (Mapped::Forgotten, "forgotten by opening"),
];

impl Mapped {
    /// What a call shows that finds this.
    pub fn by(change: Change, found: Found) -> Option<Mapped> {
        match (change, found) {
            (Change::Map, Found::Closed) => Some(Mapped::MapClosed),
            (Change::Map, Found::NoBuffer) => Some(Mapped::MapNoBuffer),
            (Change::Map, Found::Mapped) => Some(Mapped::MapAgain),
            (Change::Unmap, Found::Closed) => Some(Mapped::UnmapClosed),
            (Change::Unmap, Found::NoBuffer) => Some(Mapped::UnmapNoBuffer),
            (Change::Unmap, Found::Unmapped) => Some(Mapped::UnmapOfNone),
            (Change::Map, Found::Unmapped) | (Change::Unmap, Found::Mapped) => None,
        }
    }
}
