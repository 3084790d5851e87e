//! What is wrong with a caption frame, told from the bytes of the last accepted S_FMT's answer and of the frame. It says the
//! same as the model, in another way: so the model's reading is tested too, and it is known which flaws were met.

use crate::model::bytes::{half, word};

/// The first flaw of a caption frame, or what kind of whole frame it is.
#[derive(Clone, Copy, Debug, PartialEq)]
pub enum Judged {
    Empty,
    Whole,
    /// As many lines as were negotiated, and more than one.
    AllLines,
    /// A line that two services share, both negotiated.
    SharedLine,
    Time,
    Length,
    NoService,
    TwoServices,
    UnknownService,
    Field,
    Line,
    NothingOnLine,
    /// The line was negotiated, for another service.
    OtherService,
    /// One of the two, but not by what was negotiated before.
    TakenAway,
    LineTwice,
}

pub const JUDGED: [(Judged, &str); 15] = [
    (Judged::Empty, "no record"),
    (Judged::Whole, "whole"),
    (Judged::AllLines, "all lines"),
    (Judged::SharedLine, "a shared line"),
    (Judged::Time, "time"),
    (Judged::Length, "length"),
    (Judged::NoService, "no service"),
    (Judged::TwoServices, "two services"),
    (Judged::UnknownService, "unknown service"),
    (Judged::Field, "field"),
    (Judged::Line, "line"),
    (Judged::NothingOnLine, "nothing on the line"),
    (Judged::OtherService, "another service on the line"),
    (Judged::TakenAway, "a service taken away"),
    (Judged::LineTwice, "a line twice"),
];

impl Judged {
    pub fn is_whole(self) -> bool {
        matches!(self, Judged::Empty | Judged::Whole | Judged::AllLines | Judged::SharedLine)
    }
}

/// A record's own flaw: of its service, its field, its line.
fn flaw_of(format: &[u8], record: &[u8]) -> Option<Judged> {
    let [id, field, line] = [0, 4, 8].map(|at| word(record, at));
    if id == 0 {
        return Some(Judged::NoService);
    }
    if ![1, 0x400, 0x1000, 0x4000].contains(&id) {
        return Some(if id & !0x5401 == 0 { Judged::TwoServices } else { Judged::UnknownService });
    }
    if field > 1 {
        return Some(Judged::Field);
    }
    if line > 23 {
        return Some(Judged::Line);
    }
    match u32::from(carried(format, field, line)) {
        0 => Some(Judged::NothingOnLine),
        set if set & id == 0 => Some(Judged::OtherService),
        _ => None,
    }
}

/// What the answer of an S_FMT has for a line.
fn carried(format: &[u8], field: u32, line: u32) -> u16 {
    half(format, 6 + 2 * (24 * field + line) as usize)
}

/// What there is to say of a frame: `format` is the answer of the last accepted S_FMT, or zeros if there was none.
pub fn judge(format: &[u8], frame: &[u8], microseconds: i32) -> Judged {
    if !(0..1_000_000).contains(&microseconds) {
        return Judged::Time;
    }
    if !frame.len().is_multiple_of(64) {
        return Judged::Length;
    }
    let records: Vec<&[u8]> = frame.chunks(64).collect();
    if let Some(flaw) = records.iter().find_map(|record| flaw_of(format, record)) {
        return flaw;
    }
    let mut places: Vec<(u32, u32)> = records.iter().map(|record| (word(record, 4), word(record, 8))).collect();
    places.sort_unstable();
    places.dedup();
    if places.len() < records.len() {
        return Judged::LineTwice;
    }
    if places.is_empty() {
        return Judged::Empty;
    }
    if frame.len() > 64 && frame.len() == word(format, 104) as usize {
        return Judged::AllLines;
    }
    let is_shared = |&(field, line): &(u32, u32)| carried(format, field, line).count_ones() > 1;
    if places.iter().any(is_shared) {
        return Judged::SharedLine;
    }
    Judged::Whole
}
