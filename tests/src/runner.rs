//! Runs one session on two devices and compares everything that can be seen after every step.

use crate::ask::ask;
use crate::coverage::{Aged, Coverage, Stream};
use crate::fields;
use crate::guarded::Guarded;
use crate::judge::{judge, Judged};
use crate::mapped::{Found, Mapped};
use crate::model::bytes::{signed, word};
use crate::model::words::{
    size, type_at, DQBUF, G_CROP, G_FMT, QBUF, QUERYBUF, REQBUFS, STREAMOFF, S_CROP, S_FMT, TRY_FMT,
};
use crate::random;
use crate::recorder::{
    Recorder, BLANK, CAPTIONS, COMPLETE, DAMAGED, GAPS, IGNORED, PICTURES, REFUSED, RUNNING, STORED, STREAMS,
};
use crate::session::{made_length, Age, Arrival, Change, Lent, Mapping, Session, Step};
use crate::tops::Lines;
use crate::walk::Grid;
use std::fmt::Debug;

/// A difference between the two devices, or a byte changed that no call may change.
#[derive(Debug, Clone)]
pub struct Difference {
    /// The place of the step after which it was seen.
    pub step: usize,
    pub what: String,
    pub expected: String,
    pub got: String,
}

/// What one of the two devices is lent.
#[derive(Default)]
struct Side {
    argument: Guarded,
    /// Of the pictures, and of the captions.
    memories: [Guarded; 2],
    other: Guarded,
}

/// The two sides, and the sheet and the frame that both are lent.
#[derive(Default)]
pub struct Runner {
    expected: Side,
    tested: Side,
    sheet: Guarded,
    frame: Guarded,
    copy: Vec<u8>,
    /// All services that were negotiated since the last opening, as an answer of S_FMT has them.
    ever: Vec<u8>,
    /// The widths and heights of the sheet that was opened last.
    grids: [Grid; 2],
    /// The lines of its bounds, and what the crop was made of.
    lines: Lines,
    /// Of each stream: whether a run is on, and whether the last one grew old.
    running: [bool; 2],
    aged: [bool; 2],
    /// Whether a buffer is mapped, and whether one was when the last run was stopped and none was mapped since.
    mapped: [bool; 2],
    stopped: [bool; 2],
    /// What the tested device kept before and after a call.
    before: Vec<u8>,
    after: Vec<u8>,
}

impl Runner {
    /// Runs the session on both devices, up to the first difference.
    pub fn run<E: Recorder, T: Recorder>(
        &mut self,
        session: &Session,
        expected: &mut E,
        tested: &mut T,
        coverage: &mut Coverage,
    ) -> Result<(), Difference> {
        let before = session.before_opening();
        expected.scramble(before);
        tested.scramble(before);
        self.prepare_memories([0, 0], 0);
        (self.running, self.aged, self.mapped, self.stopped) = Default::default();
        for (place, step) in session.steps.iter().enumerate() {
            coverage.calls += step.calls();
            self.step(place, step, expected, tested, coverage)
                .and_then(|()| self.probe(place, expected, tested, coverage))
                .map_err(|difference| Difference { step: place, ..difference })?;
        }
        coverage.sessions += 1;
        let last = session.steps.len().saturating_sub(1);
        self.both_memories().map_err(|difference| Difference { step: last, ..difference })
    }

    fn step<E: Recorder, T: Recorder>(
        &mut self,
        place: usize,
        step: &Step,
        expected: &mut E,
        tested: &mut T,
        coverage: &mut Coverage,
    ) -> Result<(), Difference> {
        match step {
            Step::Open { sheet, lengths } => {
                let number = self.opening(place, sheet, *lengths, expected, tested)?;
                coverage.opening(number);
                self.forgotten(coverage);
                self.prepare_memories(lengths.map(made_length), sheet.len() as u64);
                self.ever = vec![0; size(S_FMT)];
                (self.running, self.aged, self.stopped) = Default::default();
                if number == 0 {
                    self.grids = Grid::both(sheet);
                    self.lines = Lines::of(sheet);
                }
                Ok(())
            }
            Step::Request { word, argument } => {
                let waiting = dequeued_from(expected, *word, argument);
                let number = self.request(place, *word, argument, expected, tested)?;
                coverage.request(*word, argument, number);
                self.seen_of_maps(*word, argument, number, coverage);
                if *word == S_FMT && number == 0 && argument[0] == CAPTIONS as u8 {
                    let answer = self.expected.argument.body();
                    self.ever.iter_mut().zip(answer).for_each(|(ever, now)| *ever |= now);
                }
                if let Some((kind, stream)) = waiting {
                    coverage.dequeue(kind, stream, number);
                }
                match *word {
                    S_FMT | TRY_FMT if number == 0 => self.walked(*word, argument, coverage),
                    S_CROP if number == 0 => {
                        self.lines.set(argument);
                        Ok(())
                    }
                    G_CROP if number == 0 => self.line_walked(coverage),
                    _ => Ok(()),
                }
            }
            Step::Arrival(arrival) => self.arrival(place, arrival, expected, tested, coverage),
            Step::Plane { frame_length, plane } => {
                let answer = expected.plane(*frame_length, *plane);
                coverage.plane(answer.number);
                same("plane", &answer, &tested.plane(*frame_length, *plane))
            }
            Step::Map(mapping) => self.change(Change::Map, mapping, expected, tested, coverage),
            Step::Unmap(mapping) => self.change(Change::Unmap, mapping, expected, tested, coverage),
            Step::Age(age) => {
                self.age(age, expected, tested);
                Ok(())
            }
        }
    }

    /// Maps or unmaps, as often as is told.
    fn change<E: Recorder, T: Recorder>(
        &mut self,
        change: Change,
        mapping: &Mapping,
        expected: &mut E,
        tested: &mut T,
        coverage: &mut Coverage,
    ) -> Result<(), Difference> {
        for _ in 0..mapping.times {
            let found = Found::by(expected, mapping);
            tested.content(&mut self.before);
            let number = mapping.once(change, expected);
            coverage.found(change, mapping.kind, found, number);
            same("number", &number, &mapping.once(change, tested))?;
            same(&format!("a number that goes with {found:?}"), &true, &found.numbers(change).contains(&number))?;
            if number != 0 {
                self.unchanged(tested)?;
            } else if let (Change::Map, Some(place)) = (change, place_of(mapping.kind)) {
                self.stopped[place] = false;
            }
        }
        Ok(())
    }

    /// An opening over a device with maps.
    fn forgotten(&self, coverage: &mut Coverage) {
        for (kind, _) in STREAMS.into_iter().zip(self.mapped).filter(|(_, mapped)| *mapped) {
            coverage.mapped(kind, Mapped::Forgotten);
        }
    }

    /// What a request shows of maps, by those that there were before it and by its answer.
    fn seen_of_maps(&mut self, request: u32, argument: &[u8], number: u32, coverage: &mut Coverage) {
        let named = type_at(request).filter(|_| argument.len() == size(request)).map(|at| word(argument, at));
        let Some((kind, place)) = named.and_then(|kind| Some((kind, place_of(kind)?))) else { return };
        let (mapped, running) = (self.mapped[place], self.running[place]);
        match (request, number) {
            (REQBUFS, 16) if mapped => match (word(argument, 0), running) {
                (0, false) => coverage.mapped(kind, Mapped::NoneRefused),
                (0, true) => coverage.mapped(kind, Mapped::RunGoesOn),
                (_, false) => coverage.mapped(kind, Mapped::SomeRefused),
                (_, true) => {}
            },
            (REQBUFS, 22) if mapped => coverage.mapped(kind, Mapped::OtherMemory),
            (REQBUFS, 0) if self.mapped[1 - place] => coverage.mapped(kind, Mapped::OtherMapped),
            (STREAMOFF, 0) if mapped && running => {
                coverage.mapped(kind, Mapped::Stopped);
                self.stopped[place] = true;
            }
            (QUERYBUF | QBUF | DQBUF, 0) => {
                let flags = word(self.expected.argument.body(), 12);
                coverage.flags(request, kind, flags);
                if flags & 1 != 0 && self.stopped[place] {
                    coverage.mapped(kind, Mapped::ToldAfterStop);
                }
            }
            _ => {}
        }
    }

    /// Both sides are given the same arrivals: a count that differed before still differs.
    fn age<E: Recorder, T: Recorder>(&mut self, age: &Age, expected: &mut E, tested: &mut T) {
        let Some(now) = expected.accepted(age.kind) else { return };
        let past = age.past(now);
        expected.age(age.kind, past);
        tested.age(age.kind, past);
        for (kind, aged) in STREAMS.iter().zip(&mut self.aged) {
            *aged |= *kind == age.kind && past.accepted() > 0;
        }
    }

    /// An accepted S_FMT or TRY_FMT of pictures answers what a walk of all sizes gives.
    fn walked(&self, request: u32, argument: &[u8], coverage: &mut Coverage) -> Result<(), Difference> {
        if word(argument, 0) != PICTURES {
            return Ok(());
        }
        for (at, grid) in [4, 8].into_iter().zip(self.grids) {
            let asked = word(argument, at);
            coverage.asked(request, grid.place(asked));
            same("size walked to", &grid.walk(asked), &word(self.expected.argument.body(), at))?;
        }
        Ok(())
    }

    /// An accepted G_CROP answers the top that a walk of the lines gives.
    fn line_walked(&self, coverage: &mut Coverage) -> Result<(), Difference> {
        let [top, height] = [8, 16].map(|at| signed(self.expected.argument.body(), at));
        coverage.top(self.lines.place(height));
        same("top walked to", &self.lines.walk(height), &top)
    }

    /// The sheet is only lent: it must come back as it was, and is overwritten right after.
    fn opening<E: Recorder, T: Recorder>(
        &mut self,
        place: usize,
        sheet: &[u8],
        lengths: [u64; 2],
        expected: &mut E,
        tested: &mut T,
    ) -> Result<u32, Difference> {
        self.sheet.set(sheet, place);
        let number = expected.open(sheet, lengths);
        same("number", &number, &tested.open(self.sheet.body(), lengths))?;
        same_bytes("sheet", sheet, self.sheet.body()).map_err(|(_, found)| found)?;
        intact("sheet", &self.sheet)?;
        self.sheet.body_mut().fill(0x5a);
        Ok(number)
    }

    /// After an opening both sides have memories of those lengths with the same bytes in them.
    fn prepare_memories(&mut self, lengths: [usize; 2], seed: u64) {
        let sides = self.expected.memories.iter_mut().zip(&mut self.tested.memories);
        for ((left, right), length) in sides.zip(lengths) {
            left.reset(length, 0);
            random::fill(seed, left.body_mut());
            right.set(left.body(), 0);
        }
    }

    /// The memories of both sides, whole.
    fn both_memories(&self) -> Result<(), Difference> {
        for ((left, right), name) in self.expected.memories.iter().zip(&self.tested.memories).zip(MEMORIES) {
            same_bytes(name, left.body(), right.body()).map_err(|(_, found)| found)?;
            intact(name, right)?;
        }
        Ok(())
    }

    fn request<E: Recorder, T: Recorder>(
        &mut self,
        place: usize,
        word: u32,
        argument: &[u8],
        expected: &mut E,
        tested: &mut T,
    ) -> Result<u32, Difference> {
        let (left, right) = (&mut self.expected.argument, &mut self.tested.argument);
        left.set(argument, 0);
        right.set(argument, place);
        tested.content(&mut self.before);
        let number = expected.request(word, left.body_mut());
        let got = tested.request(word, right.body_mut());
        same("number", &number, &got)?;
        same_bytes("argument", left.body(), right.body()).map_err(|(at, found)| Difference {
            what: format!("argument, field {}", fields::name_at(word, argument, at)),
            ..found
        })?;
        intact("argument", right)?;
        if number != 0 {
            self.unchanged(tested)?;
        }
        Ok(number)
    }

    fn arrival<E: Recorder, T: Recorder>(
        &mut self,
        place: usize,
        arrival: &Arrival,
        expected: &mut E,
        tested: &mut T,
        coverage: &mut Coverage,
    ) -> Result<(), Difference> {
        self.frame.reset(arrival.frame.length, place);
        arrival.frame.write(self.frame.body_mut());
        self.copy.clear();
        self.copy.extend_from_slice(self.frame.body());

        if let Lent::Other(length) = arrival.lent {
            self.expected.other.reset(length, 0);
            random::fill(1, self.expected.other.body_mut());
            self.tested.other.set(self.expected.other.body(), place);
        }
        let (left, right, name) = match arrival.memory() {
            Some(place) => (&mut self.expected.memories[place], &mut self.tested.memories[place], MEMORIES[place]),
            None => (&mut self.expected.other, &mut self.tested.other, "lent memory"),
        };
        tested.content(&mut self.before);
        let (kind, seconds, microseconds) = (arrival.kind, arrival.seconds, arrival.microseconds);
        let accepted = expected.accepted(kind).unwrap_or(0);
        let answer = expected.arrival(kind, left.body_mut(), &self.copy, seconds, microseconds);
        let got = tested.arrival(kind, right.body_mut(), self.frame.body(), seconds, microseconds);
        coverage.arrival(kind, answer);
        if answer.answer == STORED && answer.number == 0 && accepted > 0 {
            coverage.aged(kind, Aged::BackToZero);
        }
        if answer.answer == STORED && expected.maps(kind).is_some_and(|maps| maps[answer.buffer as usize] > 0) {
            coverage.mapped(kind, Mapped::Stored);
        }
        same("answer to the arrival", &answer, &got)?;
        same_bytes(name, left.body(), right.body()).map_err(|(_, found)| found)?;
        intact(name, right)?;
        if kind == CAPTIONS && !matches!(answer.answer, REFUSED | IGNORED) {
            let judged = second_opinion(expected, &self.ever, &self.copy, microseconds);
            coverage.judged(judged);
            same(&format!("damaged, or {judged:?}"), &!judged.is_whole(), &(answer.answer == DAMAGED))?;
        }
        same_bytes("frame", &self.copy, self.frame.body()).map_err(|(_, found)| found)?;
        intact("frame", &self.frame)?;
        if matches!(answer.answer, REFUSED | IGNORED) {
            self.unchanged(tested)?;
        }
        Ok(())
    }

    /// A refused call leaves the tested device as it was.
    fn unchanged<T: Recorder>(&mut self, tested: &T) -> Result<(), Difference> {
        tested.content(&mut self.after);
        same_bytes("device after a refusal", &self.before, &self.after).map_err(|(_, found)| found)
    }

    /// The verdict on a run that grew old; one that begins is young.
    fn old_run(&mut self, stream: usize, verdict: u32, coverage: &mut Coverage) {
        let (was_running, is_running) = (self.running[stream], verdict == RUNNING);
        self.running[stream] = is_running;
        self.aged[stream] &= was_running || !is_running;
        match verdict {
            COMPLETE if self.aged[stream] => coverage.aged(STREAMS[stream], Aged::Complete),
            GAPS if self.aged[stream] => coverage.aged(STREAMS[stream], Aged::Gaps),
            _ => {}
        }
    }

    /// The verdicts, the maps as far as they can be seen, and a plane after every step, all planes after every eighth.
    fn probe<E: Recorder, T: Recorder>(
        &mut self,
        place: usize,
        expected: &E,
        tested: &T,
        coverage: &mut Coverage,
    ) -> Result<(), Difference> {
        for (stream, kind) in STREAMS.into_iter().enumerate() {
            let verdict = expected.verdict(kind);
            coverage.verdict(kind, verdict);
            self.old_run(stream, verdict, coverage);
            same(&format!("verdict of type {kind}"), &verdict, &tested.verdict(kind))?;
            if let Some(maps) = expected.maps(kind) {
                self.mapped[stream] = maps.iter().any(|count| *count > 0);
                same(&format!("maps of type {kind}"), &maps, &tested.maps(kind).unwrap_or(maps))?;
            }
        }
        same("counts and next numbers that add up", &true, &tested.adds_up())?;
        let other = OTHER_TYPES[place % OTHER_TYPES.len()];
        same(&format!("verdict of type {other}"), &BLANK, &tested.verdict(other))?;
        let size = expected.image_size();
        let planes = if place % 8 == 7 { 0..4 } else { place as u32 % 4..place as u32 % 4 + 1 };
        for plane in planes {
            let answer = expected.plane(size, plane);
            coverage.plane(answer.number);
            same("plane at the image size", &answer, &tested.plane(size, plane))?;
        }
        Ok(())
    }
}

const MEMORIES: [&str; 2] = ["picture memory", "caption memory"];

/// The place of the stream that a type names.
fn place_of(kind: u32) -> Option<usize> {
    STREAMS.iter().position(|known| *known == kind)
}

/// Types that name no stream: their verdict is BLANK.
const OTHER_TYPES: [u32; 8] = [0, 2, 5, 7, 0x0100_0001, 0x0000_0106, 0x8000_0006, u32::MAX];

/// How a DQBUF with nothing wrong in its argument finds its stream, told by calls that change nothing.
fn dequeued_from<R: Recorder>(device: &mut R, request: u32, argument: &[u8]) -> Option<(u32, Stream)> {
    if request != DQBUF || argument.len() != size(DQBUF) || word(argument, 48) != 1 {
        return None;
    }
    let kind = STREAMS.into_iter().find(|kind| *kind == word(argument, 4))?;
    if device.verdict(kind) == RUNNING {
        return Some((kind, Stream::Running));
    }
    match ask(device, QUERYBUF, &[(4, kind)]).0 {
        0 => Some((kind, Stream::Stopped)),
        _ => Some((kind, Stream::NoBuffers)),
    }
}

/// What is wrong with a caption frame by the format that the device tells, and by all that were in force before.
fn second_opinion<R: Recorder>(device: &mut R, ever: &[u8], frame: &[u8], microseconds: i32) -> Judged {
    let (_, format) = ask(device, G_FMT, &[(0, CAPTIONS)]);
    match judge(&format, frame, microseconds) {
        Judged::NothingOnLine | Judged::OtherService if judge(ever, frame, microseconds).is_whole() => {
            Judged::TakenAway
        }
        judged => judged,
    }
}

pub fn same<A: PartialEq + Debug>(what: &str, expected: &A, got: &A) -> Result<(), Difference> {
    if expected == got {
        return Ok(());
    }
    Err(difference(what, format!("{expected:?}"), format!("{got:?}")))
}

/// If the bytes differ: the first place where they do, and the difference.
pub fn same_bytes(what: &str, expected: &[u8], got: &[u8]) -> Result<(), (usize, Difference)> {
    if expected == got {
        return Ok(());
    }
    let at = expected.iter().zip(got).position(|(left, right)| left != right).unwrap_or(0);
    let part = |bytes: &[u8]| format!("bytes from {at} on: {}", hex(&bytes[at..bytes.len().min(at + 16)]));
    Err((at, difference(what, part(expected), part(got))))
}

pub fn intact(what: &str, guarded: &Guarded) -> Result<(), Difference> {
    if guarded.intact() {
        return Ok(());
    }
    Err(difference(what, "only its own bytes changed".into(), "a byte before or behind it changed".into()))
}

fn difference(what: &str, expected: String, got: String) -> Difference {
    Difference { step: 0, what: what.into(), expected, got }
}

pub fn hex(bytes: &[u8]) -> String {
    bytes.iter().map(|byte| format!("{byte:02x}")).collect()
}
