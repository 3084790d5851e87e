//! Copies of the model with one fault each. The tests show that every one of them is found.

use crate::generate::maps;
use crate::model::buffers::{Place, Stream, MAPPED, MOST, MOST_MAPS};
use crate::model::bytes::{half, put, put_half, put_signed, signed, word};
use crate::model::control::NEXT;
use crate::model::crop::Rectangle;
use crate::model::services::{Lines, RECORD, SERVICES};
use crate::model::words::*;
use crate::model::{Device, LONGEST_MEMORY, RUN_LIMIT};
use crate::recorder::*;
use crate::session::{Change, Mapping};

#[derive(Clone, Copy, Debug, PartialEq)]
pub enum Fault {
    NewestOutgoingFirst,
    VerdictConstant,
    FailedDequeueCounted,
    TieToLargerSize,
    GreatestOffByAStep,
    NearestFromAbove,
    TieToLargerValue,
    LeftRaisedToZero,
    TopNotRounded,
    TopRoundedUp,
    TopRoundedFirst,
    TopItselfRounded,
    OpeningTopNotRounded,
    DamagedNotNumbered,
    OneMoreByteWritten,
    RefusalWritesArgument,
    StopKeepsQueues,
    WrongSlot,
    FirstFrameOnly,
    MillionMicrosecondsTaken,
    NextBitKept,
    ReservedNotZero,
    ClosedAnswersLength,
    ClosedAnswersUnknown,
    UnknownAnswersInvalid,
    StoppedAnswersSoon,
    StartForgetsRun,
    CaptionLineTwice,
    CaptionsBusyByPictures,
    CaptionBufferToPictures,
    VerdictOfCaptions,
    IoSizeCountsServices,
    CaptionUsedIsIoSize,
    CaptionSlotOfPictures,
    OneServiceOnLine,
    AnyServiceOnLine,
    ServicesNeverTakenAway,
    TryKeepsServices,
    StopEndsBoth,
    OtherTypeArrives,
    CaptionLengthUnchecked,
    EmptyCaptionDamaged,
    CaptionOrderAsked,
    LimitOneLower,
    LimitOneHigher,
    CaptionsKeepOldLimit,
    NumberStaysAtLast,
    NumberGoesBackEarly,
    VerdictByReducedCounts,
    MapLimitOneHigher,
    MapLimitOneLower,
    MapIsAFlag,
    MapLengthUnchecked,
    MapOffsetRoundedDown,
    MapOfNotGranted,
    OtherTypeMaps,
    CaptionMapToPictures,
    UnmapOfNoneTaken,
    FlagOfAnotherBuffer,
    DequeueTellsNoMap,
    NoneAskedWhileMapped,
    FirstMapOnlyRefuses,
    OtherMapRefuses,
    MapBeforeMemory,
    RefusedRequestStops,
    StopUnmaps,
    OpeningKeepsMaps,
}

pub const FAULTS: [Fault; 67] = [
    Fault::NewestOutgoingFirst,
    Fault::VerdictConstant,
    Fault::FailedDequeueCounted,
    Fault::TieToLargerSize,
    Fault::GreatestOffByAStep,
    Fault::NearestFromAbove,
    Fault::TieToLargerValue,
    Fault::LeftRaisedToZero,
    Fault::TopNotRounded,
    Fault::TopRoundedUp,
    Fault::TopRoundedFirst,
    Fault::TopItselfRounded,
    Fault::OpeningTopNotRounded,
    Fault::DamagedNotNumbered,
    Fault::OneMoreByteWritten,
    Fault::RefusalWritesArgument,
    Fault::StopKeepsQueues,
    Fault::WrongSlot,
    Fault::FirstFrameOnly,
    Fault::MillionMicrosecondsTaken,
    Fault::NextBitKept,
    Fault::ReservedNotZero,
    Fault::ClosedAnswersLength,
    Fault::ClosedAnswersUnknown,
    Fault::UnknownAnswersInvalid,
    Fault::StoppedAnswersSoon,
    Fault::StartForgetsRun,
    Fault::CaptionLineTwice,
    Fault::CaptionsBusyByPictures,
    Fault::CaptionBufferToPictures,
    Fault::VerdictOfCaptions,
    Fault::IoSizeCountsServices,
    Fault::CaptionUsedIsIoSize,
    Fault::CaptionSlotOfPictures,
    Fault::OneServiceOnLine,
    Fault::AnyServiceOnLine,
    Fault::ServicesNeverTakenAway,
    Fault::TryKeepsServices,
    Fault::StopEndsBoth,
    Fault::OtherTypeArrives,
    Fault::CaptionLengthUnchecked,
    Fault::EmptyCaptionDamaged,
    Fault::CaptionOrderAsked,
    Fault::LimitOneLower,
    Fault::LimitOneHigher,
    Fault::CaptionsKeepOldLimit,
    Fault::NumberStaysAtLast,
    Fault::NumberGoesBackEarly,
    Fault::VerdictByReducedCounts,
    Fault::MapLimitOneHigher,
    Fault::MapLimitOneLower,
    Fault::MapIsAFlag,
    Fault::MapLengthUnchecked,
    Fault::MapOffsetRoundedDown,
    Fault::MapOfNotGranted,
    Fault::OtherTypeMaps,
    Fault::CaptionMapToPictures,
    Fault::UnmapOfNoneTaken,
    Fault::FlagOfAnotherBuffer,
    Fault::DequeueTellsNoMap,
    Fault::NoneAskedWhileMapped,
    Fault::FirstMapOnlyRefuses,
    Fault::OtherMapRefuses,
    Fault::MapBeforeMemory,
    Fault::RefusedRequestStops,
    Fault::StopUnmaps,
    Fault::OpeningKeepsMaps,
];

pub struct Faulty {
    device: Device,
    fault: Fault,
    /// All services that were ever negotiated.
    ever: Lines,
}

/// The type that a request names; 1 if it names none.
fn kind_of(request: u32, argument: &[u8]) -> u32 {
    type_at(request).map_or(PICTURES, |at| word(argument, at))
}

/// What a fault changes of a stream before REQBUFS.
fn before_buffers(fault: Fault, request: u32, stream: &mut Stream, argument: &[u8]) {
    if request != REQBUFS || word(argument, 8) != 1 {
        return;
    }
    match fault {
        Fault::NoneAskedWhileMapped if word(argument, 0) == 0 => stream.maps = [0; MOST],
        Fault::FirstMapOnlyRefuses if stream.maps[0] == 0 => stream.maps = [0; MOST],
        Fault::RefusedRequestStops if stream.is_mapped() => stream.stop(),
        _ => {}
    }
}

/// A place that begins where the slot of a buffer that was granted begins, and is as long.
fn is_granted(stream: &Stream, place: &Mapping) -> bool {
    (0..stream.granted).any(|index| maps::slot_of(stream, index) == *place)
}

/// The slot behind those of the buffers that were granted.
fn is_next_slot(stream: &Stream, place: &Mapping) -> bool {
    stream.slot() > 0 && maps::slot_of(stream, stream.granted) == *place
}

impl Faulty {
    pub fn new(fault: Fault) -> Faulty {
        Faulty { device: Device::closed(), fault, ever: Lines::default() }
    }

    /// The stream of a request whose argument is as long as it has to be.
    fn stream(&self, request: u32, argument: &[u8]) -> Option<&Stream> {
        let opened = self.device.opened().filter(|_| argument.len() == size(request))?;
        opened.stream(kind_of(request, argument))
    }

    /// What a fault changes before a request is made.
    fn before(&mut self, request: u32, argument: &mut [u8]) {
        let Some(opened) = self.device.opened_mut() else { return };
        if argument.len() != size(request) {
            return;
        }
        let kind = kind_of(request, argument);
        let Some(stream) = opened.stream_mut(kind) else { return };
        match (self.fault, request) {
            (Fault::NewestOutgoingFirst, DQBUF) => {
                let mut indices: Vec<usize> = stream.outgoing.indices().collect();
                let by = usize::from(!indices.is_empty());
                indices.rotate_right(by);
                stream.outgoing = Default::default();
                indices.into_iter().for_each(|index| stream.outgoing.put(index));
            }
            (Fault::TieToLargerSize, S_FMT | TRY_FMT) if kind == PICTURES => {
                let (wanted, sizes) = (word(argument, 4), opened.sheet.width);
                let inside = wanted > sizes.least && wanted < sizes.greatest;
                if inside && (wanted - sizes.least) % sizes.step * 2 == sizes.step {
                    put(argument, 4, wanted + 1);
                }
            }
            (Fault::GreatestOffByAStep, S_FMT | TRY_FMT) if kind == PICTURES => {
                let sizes = opened.sheet.width;
                put(argument, 4, word(argument, 4).min(sizes.greatest.saturating_sub(sizes.step)));
            }
            (Fault::NearestFromAbove, S_FMT | TRY_FMT) if kind == PICTURES => {
                let (wanted, sizes) = (word(argument, 8), opened.sheet.height);
                put(argument, 8, wanted.saturating_add(sizes.step / 2));
            }
            (Fault::LeftRaisedToZero, S_CROP) => {
                let left = signed(argument, 4).max(0);
                put_signed(argument, 4, left);
            }
            (Fault::StartForgetsRun, STREAMON) if stream.streaming => stream.run = Default::default(),
            (Fault::StopEndsBoth, STREAMOFF) => {
                opened.pictures.stop();
                opened.captions.stop();
            }
            (Fault::CaptionBufferToPictures, QBUF) => put(argument, 4, PICTURES),
            (Fault::StopUnmaps, STREAMOFF) => stream.maps = [0; MOST],
            _ => before_buffers(self.fault, request, stream, argument),
        }
    }

    /// What a fault changes after a request that named this type was answered.
    fn after(&mut self, kind: u32, request: u32, number: u32, argument: &mut [u8]) {
        match (self.fault, request, number) {
            (Fault::FailedDequeueCounted, DQBUF, 11) => {
                if let Some(stream) = self.device.opened_mut().and_then(|opened| opened.stream_mut(kind)) {
                    stream.run.handed_over += 1;
                }
            }
            (Fault::RefusalWritesArgument, _, 22) if argument.len() > 60 => argument[60] = 0,
            (Fault::ReservedNotZero, G_FMT, 0) => argument[203] = 1,
            (Fault::FlagOfAnotherBuffer, QUERYBUF | QBUF | DQBUF, 0) => self.flag_of_the_next(kind, argument),
            (Fault::DequeueTellsNoMap, DQBUF, 0) => put(argument, 12, 0),
            (_, S_CROP, 0) => self.after_crop(&Rectangle::read(argument, 4)),
            (_, _, 0) if kind == CAPTIONS => self.after_captions(request, argument),
            _ => {}
        }
    }

    /// The same for an accepted S_CROP, by what it wished for.
    fn after_crop(&mut self, wish: &Rectangle) {
        let Some(opened) = self.device.opened_mut() else { return };
        let (bounds, inside) = (opened.sheet.bounds, wish.inside(&opened.sheet.bounds));
        opened.crop = match self.fault {
            Fault::TopNotRounded => inside,
            Fault::TopRoundedUp => Rectangle { top: inside.top + (inside.top - bounds.top) % 2, ..inside },
            Fault::TopRoundedFirst => {
                let odd = (wish.top as i64 - bounds.top as i64).rem_euclid(2) as i32;
                Rectangle { top: wish.top.saturating_sub(odd), ..*wish }.inside(&bounds)
            }
            Fault::TopItselfRounded => Rectangle { top: inside.top - inside.top.rem_euclid(2), ..inside },
            _ => opened.crop,
        };
    }

    /// The same for an accepted request about captions.
    fn after_captions(&mut self, request: u32, argument: &mut [u8]) {
        let Some(opened) = self.device.opened_mut() else { return };
        match (self.fault, request) {
            (Fault::IoSizeCountsServices, G_FMT | S_FMT | TRY_FMT) => {
                let services: u32 = (0..48).map(|place| half(argument, 6 + 2 * place).count_ones()).sum();
                put(argument, 104, services * RECORD as u32);
            }
            (Fault::OneServiceOnLine, G_FMT | S_FMT | TRY_FMT) => {
                for at in (6..102).step_by(2) {
                    let set = half(argument, at);
                    put_half(argument, at, set & set.wrapping_neg());
                }
            }
            (Fault::TryKeepsServices, TRY_FMT) if opened.captions.granted == 0 => {
                let mut lines = argument.to_vec();
                put_half(&mut lines, 4, 0);
                self.device.request(S_FMT, &mut lines);
            }
            (Fault::ServicesNeverTakenAway, S_FMT) => {
                for (ever, set) in self.ever.0.iter_mut().flatten().zip(opened.lines.sets()) {
                    *ever |= set;
                }
            }
            (Fault::CaptionUsedIsIoSize, DQBUF) => put(argument, 8, opened.captions.frame_size),
            (Fault::CaptionBufferToPictures, QBUF) => put(argument, 4, CAPTIONS),
            (Fault::CaptionSlotOfPictures, QUERYBUF | QBUF | DQBUF) => {
                let slot = opened.pictures.slot() as u32;
                put(argument, 52, word(argument, 0).wrapping_mul(slot));
                put(argument, 56, slot);
            }
            _ => {}
        }
    }

    /// The bytes that a fault takes a caption frame for, if not for what they are.
    fn other_frame(&self, frame: &[u8]) -> Option<Vec<u8>> {
        let lines = self.device.opened()?.lines;
        let place = |record: &[u8]| (word(record, 4), word(record, 8));
        let mut records: Vec<Vec<u8>> = frame.chunks_exact(RECORD).map(<[u8]>::to_vec).collect();
        match self.fault {
            _ if !frame.len().is_multiple_of(RECORD) => return None,
            Fault::EmptyCaptionDamaged if frame.is_empty() => return Some(vec![0]),
            Fault::CaptionOrderAsked if !records.is_sorted_by_key(|record| place(record)) => return Some(vec![0]),
            Fault::CaptionLineTwice => {
                let mut seen = Vec::new();
                records.retain(|record| {
                    let is_new = !seen.contains(&place(record));
                    seen.push(place(record));
                    is_new
                });
            }
            Fault::AnyServiceOnLine => {
                for record in records.iter_mut().filter(|record| SERVICES.map(u32::from).contains(&word(record, 0))) {
                    let (field, line) = place(record);
                    let set = lines.0.get(field as usize).and_then(|lines| lines.get(line as usize));
                    let set = u32::from(set.copied().unwrap_or(0));
                    if set & word(record, 0) == 0 {
                        put(record, 0, set & set.wrapping_neg());
                    }
                }
            }
            _ => return None,
        }
        Some(records.concat())
    }
}

impl Recorder for Faulty {
    fn open(&mut self, sheet: &[u8], [pictures, captions]: [u64; 2]) -> u32 {
        self.ever = Lines::default();
        let maps = self.device.opened().map(|opened| [opened.pictures.maps, opened.captions.maps]);
        let unchecked = self.fault == Fault::CaptionLengthUnchecked;
        let number =
            self.device.open(sheet, [pictures, if unchecked { captions.min(LONGEST_MEMORY) } else { captions }]);
        if let Some(opened) = self.device.opened_mut().filter(|_| self.fault == Fault::OpeningTopNotRounded) {
            opened.crop = opened.sheet.default;
        }
        if let Some(opened) = self.device.opened_mut().filter(|_| self.fault == Fault::OpeningKeepsMaps) {
            [opened.pictures.maps, opened.captions.maps] = maps.unwrap_or_default();
        }
        number
    }

    fn request(&mut self, request: u32, argument: &mut [u8]) -> u32 {
        let closed = self.device.opened().is_none();
        let known = ALL.iter().any(|(known, _)| *known == request);
        match self.fault {
            Fault::ClosedAnswersLength if closed && known && argument.len() != size(request) => return 14,
            Fault::ClosedAnswersUnknown if closed && !known => return 25,
            Fault::UnknownAnswersInvalid if !known => return 22,
            Fault::StoppedAnswersSoon if self.stopped_with_buffers(request, argument) => return 11,
            Fault::CaptionsBusyByPictures if self.pictures_in_the_way(request, argument) => return 16,
            Fault::OtherMapRefuses if self.other_map_in_the_way(request, argument) => return 16,
            Fault::MapBeforeMemory if self.map_in_the_way(request, argument) => return 16,
            _ => {}
        }
        if self.fault == Fault::StopKeepsQueues && request == STREAMOFF {
            return self.stop_without_emptying(argument);
        }
        if self.fault == Fault::TieToLargerValue && request == S_CTRL {
            return self.set_with_larger_tie(argument);
        }
        let asked = argument.to_vec();
        self.before(request, argument);
        let number = self.device.request(request, argument);
        // A write-only argument and a refused one go back as they came.
        if number != 0 || request >> 30 == 1 {
            argument.copy_from_slice(&asked);
        }
        // An argument of another length need not have a type.
        if argument.len() == size(request) {
            self.after(kind_of(request, &asked), request, number, argument);
        }
        if self.fault == Fault::NextBitKept && request == QUERYCTRL && number == 0 {
            let id = word(argument, 0) | word(&asked, 0) & NEXT;
            put(argument, 0, id);
        }
        number
    }

    fn arrival(&mut self, kind: u32, memory: &mut [u8], frame: &[u8], seconds: i32, microseconds: i32) -> Arrived {
        let microseconds = match self.fault {
            Fault::MillionMicrosecondsTaken if microseconds == 1_000_000 => 999_999,
            _ => microseconds,
        };
        let kind = match self.fault {
            Fault::OtherTypeArrives if !STREAMS.contains(&kind) => PICTURES,
            _ => kind,
        };
        let other = if kind == CAPTIONS { self.other_frame(frame) } else { None };
        let frame = other.as_deref().unwrap_or(frame);
        if self.is_over(kind, memory.len()) {
            return Arrived { answer: REFUSED, number: 75, buffer: 0 };
        }
        let before = memory.to_vec();
        let negotiated = self.negotiate_all();
        let count = self.device.accepted(kind).unwrap_or(0);
        let over = self.step_back(kind);
        let mut arrived = self.device.arrival(kind, memory, frame, seconds, microseconds);
        let Some(opened) = self.device.opened_mut() else {
            return arrived;
        };
        opened.lines = negotiated.unwrap_or(opened.lines);
        let Some(stream) = opened.stream_mut(kind) else {
            return arrived;
        };
        stream.run.accepted += over;
        let slot = stream.slot() as usize;
        let start = arrived.buffer as usize * slot;
        match (self.fault, arrived.answer) {
            (Fault::DamagedNotNumbered, DAMAGED) => stream.run.accepted -= 1,
            (Fault::OneMoreByteWritten, STORED) => {
                if let Some(byte) = memory.get_mut(start + frame.len()) {
                    *byte ^= 1;
                }
            }
            (Fault::WrongSlot, STORED) => {
                memory.copy_from_slice(&before);
                let other = (arrived.buffer as usize + 1) % stream.granted * slot;
                memory[other..other + frame.len()].copy_from_slice(frame);
            }
            (Fault::FirstFrameOnly, STORED) if arrived.number > 0 => memory.copy_from_slice(&before),
            (Fault::NumberStaysAtLast, STORED) => arrived.number = count.min(u32::MAX.into()) as u32,
            (Fault::NumberGoesBackEarly, STORED) => arrived.number = (count % u64::from(u32::MAX)) as u32,
            (Fault::LimitOneHigher, STORED) => arrived.number = count as u32,
            _ => {}
        }
        // A buffer is told by the number that was answered.
        if let (STORED, Place::Outgoing(told)) = (arrived.answer, &mut stream.places[arrived.buffer as usize]) {
            told.number = arrived.number;
        }
        arrived
    }

    fn verdict(&self, kind: u32) -> u32 {
        match (self.fault, self.device.verdict(kind)) {
            (Fault::VerdictConstant, verdict) if verdict != RUNNING => COMPLETE,
            (Fault::VerdictOfCaptions, _) if kind == PICTURES => self.device.verdict(CAPTIONS),
            (Fault::VerdictByReducedCounts, GAPS | COMPLETE) => self.reduced_verdict(kind),
            (_, verdict) => verdict,
        }
    }

    fn plane(&self, frame_length: usize, plane: u32) -> Plane {
        self.device.plane(frame_length, plane)
    }

    fn map(&mut self, kind: u32, offset: u32, length: u32) -> u32 {
        self.change(Change::Map, Mapping { kind, offset, length, times: 1 })
    }

    fn unmap(&mut self, kind: u32, offset: u32, length: u32) -> u32 {
        self.change(Change::Unmap, Mapping { kind, offset, length, times: 1 })
    }

    fn age(&mut self, kind: u32, past: Past) {
        self.device.age(kind, past);
    }

    fn scramble(&mut self, seed: u64) {
        self.device.scramble(seed);
    }
}

impl Faulty {
    /// A DQBUF with nothing wrong in its argument finds buffers and no run.
    fn stopped_with_buffers(&self, request: u32, argument: &[u8]) -> bool {
        let stopped = |stream: &Stream| stream.granted > 0 && !stream.streaming && word(argument, 48) == 1;
        request == DQBUF && self.stream(request, argument).is_some_and(stopped)
    }

    /// A new set of services is asked for while pictures have buffers.
    fn pictures_in_the_way(&self, request: u32, argument: &[u8]) -> bool {
        let captions = |stream: &Stream| stream.kind == CAPTIONS;
        let buffers = self.device.opened().is_some_and(|opened| opened.pictures.granted > 0);
        request == S_FMT && buffers && self.stream(request, argument).is_some_and(captions)
    }

    /// Buffers are asked for, in a well made request, while one of the other stream is mapped.
    fn other_map_in_the_way(&self, request: u32, argument: &[u8]) -> bool {
        let other = |stream: &Stream| if stream.kind == PICTURES { CAPTIONS } else { PICTURES };
        let is_made = request == REQBUFS && argument.len() == size(REQBUFS) && word(argument, 8) == 1;
        let stream = self.stream(request, argument).filter(|_| is_made);
        stream.is_some_and(|stream| {
            self.device.opened().and_then(|opened| opened.stream(other(stream))).is_some_and(Stream::is_mapped)
        })
    }

    /// Buffers are asked for, of whatever memory, while one is mapped.
    fn map_in_the_way(&self, request: u32, argument: &[u8]) -> bool {
        request == REQBUFS && self.stream(request, argument).is_some_and(Stream::is_mapped)
    }

    /// A map or unmap, by what a fault takes it for.
    fn change(&mut self, change: Change, asked: Mapping) -> u32 {
        let Some(opened) = self.device.opened_mut() else { return 22 };
        let mut taken = asked;
        match self.fault {
            Fault::OtherTypeMaps if !STREAMS.contains(&asked.kind) => taken.kind = PICTURES,
            Fault::CaptionMapToPictures => taken.kind = PICTURES,
            _ => {}
        }
        let Some(stream) = opened.stream_mut(taken.kind) else { return 22 };
        let slot = stream.slot() as u32;
        match self.fault {
            Fault::MapLengthUnchecked => taken.length = slot,
            Fault::MapOffsetRoundedDown if slot > 0 => taken.offset -= taken.offset % slot,
            Fault::MapOfNotGranted if is_next_slot(stream, &taken) => return 0,
            _ => {}
        }
        let number = taken.once(change, &mut self.device);
        self.after_change(change, &taken, number)
    }

    /// What a fault makes of the number, and of the count behind it.
    fn after_change(&mut self, change: Change, taken: &Mapping, number: u32) -> u32 {
        let stream = self.device.opened_mut().and_then(|opened| opened.stream_mut(taken.kind));
        let index = stream.as_ref().and_then(|stream| taken.offset.checked_div(stream.slot() as u32));
        let Some((stream, index)) = stream.zip(index.map(|index| index as usize)) else { return number };
        match (self.fault, change, number) {
            (Fault::MapLimitOneHigher, Change::Map, 75) => return 0,
            (Fault::MapLimitOneLower, Change::Map, 0) if stream.maps[index] == MOST_MAPS => {
                stream.maps[index] -= 1;
                return 75;
            }
            (Fault::MapIsAFlag, Change::Map, 0) => stream.maps[index] = 1,
            (Fault::UnmapOfNoneTaken, Change::Unmap, 22) if is_granted(stream, taken) => return 0,
            _ => {}
        }
        number
    }

    /// The flag that is told is that of the next buffer.
    fn flag_of_the_next(&self, kind: u32, argument: &mut [u8]) {
        let Some(stream) = self.device.opened().and_then(|opened| opened.stream(kind)) else { return };
        let next = (word(argument, 0) as usize + 1) % stream.granted;
        let flags = word(argument, 12) & !MAPPED;
        put(argument, 12, if stream.maps[next] > 0 { flags | MAPPED } else { flags });
    }

    /// The run of a stream takes no more, by the limit that the fault gives it; the length of its memory comes first.
    fn is_over(&self, kind: u32, lent: usize) -> bool {
        let limit = match self.fault {
            Fault::LimitOneLower => RUN_LIMIT - 1,
            Fault::LimitOneHigher => RUN_LIMIT + 1,
            Fault::CaptionsKeepOldLimit if kind == CAPTIONS => u32::MAX.into(),
            _ => RUN_LIMIT,
        };
        let stream = self.device.opened().and_then(|opened| opened.stream(kind));
        let is_own = stream.is_some_and(|stream| stream.memory_length == lent as u64);
        is_own && self.device.accepted(kind).is_some_and(|accepted| accepted >= limit)
    }

    /// For one fault, a run at its limit counts one fewer while an arrival is answered: how many fewer.
    fn step_back(&mut self, kind: u32) -> u64 {
        let stream = self.device.opened_mut().and_then(|opened| opened.stream_mut(kind));
        match stream.filter(|stream| stream.streaming && stream.run.accepted == RUN_LIMIT) {
            Some(stream) if self.fault == Fault::LimitOneHigher => {
                stream.run.accepted -= 1;
                1
            }
            _ => 0,
        }
    }

    /// The verdict on a run that was not BLANK, by 32 bits of each count.
    fn reduced_verdict(&self, kind: u32) -> u32 {
        let run = self.device.opened().and_then(|opened| opened.stream(kind)).map(|stream| stream.run);
        let run = run.unwrap_or_default();
        match (run.handed_over as u32, run.accepted as u32) {
            (0, _) => BLANK,
            (handed, accepted) if handed == accepted => COMPLETE,
            _ => GAPS,
        }
    }

    /// For one fault, all services that ever were take the place of those that are; the latter are given back.
    fn negotiate_all(&mut self) -> Option<Lines> {
        let opened = self.device.opened_mut().filter(|_| self.fault == Fault::ServicesNeverTakenAway)?;
        Some(std::mem::replace(&mut opened.lines, self.ever))
    }

    /// The run ends, and the queues stay as they were.
    fn stop_without_emptying(&mut self, argument: &mut [u8]) -> u32 {
        let kept = self.stream(STREAMOFF, argument).map(|stream| (stream.places, stream.incoming, stream.outgoing));
        let number = self.device.request(STREAMOFF, argument);
        let Some((places, incoming, outgoing)) = kept else { return number };
        let kind = kind_of(STREAMOFF, argument);
        if let Some(stream) = self.device.opened_mut().and_then(|opened| opened.stream_mut(kind)) {
            (stream.places, stream.incoming, stream.outgoing) = (places, incoming, outgoing);
        }
        number
    }

    /// A value half way between two grid values goes up.
    fn set_with_larger_tie(&mut self, argument: &mut [u8]) -> u32 {
        let asked = argument.to_vec();
        let number = self.device.request(S_CTRL, argument);
        if number != 0 {
            return number;
        }
        let (wanted, kept) = (signed(&asked, 4), signed(argument, 4));
        let Some(opened) = self.device.opened_mut() else {
            return number;
        };
        let Some(place) = opened.sheet.controls.iter().position(|control| control.id == word(&asked, 0)) else {
            return number;
        };
        let step = opened.sheet.controls[place].step as i64;
        if wanted > kept && 2 * (wanted as i64 - kept as i64) == step {
            opened.values[place] = (kept as i64 + step) as i32;
            put_signed(argument, 4, opened.values[place]);
        }
        number
    }
}
