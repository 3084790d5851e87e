//! Sessions at random. The generator runs the model beside it, so that it knows which calls lead deeper.

pub mod ages;
pub mod arguments;
pub mod captions;
pub mod damage;
pub mod hostile;
pub mod maps;
pub mod sheets;

use crate::draft::Draft;
use crate::model::buffers::{Place, Stream};
use crate::model::bytes::put;
use crate::model::services::Lines;
use crate::model::words::*;
use crate::model::{Device, RUN_LIMIT};
use crate::random::Random;
use crate::recorder::{Recorder, CAPTIONS, PICTURES, STREAMS};
use crate::session::{made_length, Arrival, Change, Frame, Lent, Mapping, Session, Step};

/// How a session goes.
#[derive(Clone, Copy, PartialEq)]
enum Manner {
    /// Runs in which every frame is handed over before the stop.
    Careful,
    /// Runs with queues that fill and empty at random.
    Busy,
    /// All calls, most of them well made.
    Mixed,
    /// Many calls with something wrong.
    Hostile,
    /// As many buffers as there can be, and queues that are filled and emptied whole.
    Full,
    /// One opening after the other.
    Openings,
}

impl Manner {
    /// How many of a hundred calls have something wrong.
    fn hostility(self) -> usize {
        match self {
            Manner::Careful => 2,
            Manner::Full => 1,
            Manner::Busy => 5,
            Manner::Mixed => 15,
            Manner::Hostile => 55,
            Manner::Openings => 30,
        }
    }
}

/// The longest frame that is made to arrive whole.
const LONGEST_FRAME: usize = 400_000;

/// One in so many of the steps about a stream with a run on makes that run old.
const AGES: usize = 64;

/// So many of a hundred steps about a stream with buffers are about maps: more if one is mapped, since that buffer stands in the
/// way of other calls.
const MAPS: usize = 12;
const MAPS_MAPPED: usize = 22;

struct Generator {
    random: Random,
    manner: Manner,
    /// How many of a hundred calls are about captions.
    captions: usize,
    device: Device,
    /// The services that were in force before the last S_FMT that changed them.
    earlier: Lines,
    /// Stand for the memories and the frames: of all but caption frames only the lengths matter here.
    memories: [Vec<u8>; 2],
    other: Vec<u8>,
    frame: Vec<u8>,
    steps: Vec<Step>,
}

/// The session of this seed.
pub fn session(seed: u64) -> Session {
    let mut random = Random::new(seed);
    let manners = [Manner::Careful, Manner::Busy, Manner::Mixed, Manner::Hostile, Manner::Full, Manner::Openings];
    let manner = manners[random.weighted(&[25, 34, 20, 15, 1, 5])];
    let before = if random.chance(80) { random.draw() | 1 } else { 0 };
    // Full sessions are long, so that queues hold 32 and runs get numbers above a byte.
    let length = if manner == Manner::Full { 1500 } else { random.between(20, 90) as usize };
    let mut generator = Generator {
        captions: random.pick(&[10, 50, 50, 90]),
        random,
        manner,
        device: Device::closed(),
        earlier: Lines::default(),
        memories: Default::default(),
        other: Vec::new(),
        frame: Vec::new(),
        steps: Vec::new(),
    };
    // Now and then some calls meet a device that was never opened.
    if before == 0 && generator.random.chance(50) {
        for _ in 0..3 {
            generator.any_step();
        }
    }
    generator.opening();
    while generator.steps.len() < length {
        generator.step();
    }
    Session { seed, before, steps: generator.steps }
}

impl Generator {
    /// Adds a step and lets the model make it.
    fn add(&mut self, step: Step) {
        match &step {
            Step::Open { sheet, lengths } => {
                self.device.open(sheet, *lengths);
                for (memory, length) in self.memories.iter_mut().zip(lengths) {
                    memory.resize(made_length(*length), 0);
                }
            }
            Step::Request { word, argument } => {
                let (mut answer, lines) = ([0; 512], self.lines());
                self.device.request(*word, answer_of(&mut answer, argument));
                if self.lines() != lines && lines != Lines::default() {
                    self.earlier = lines;
                }
            }
            Step::Arrival(arrival) => {
                self.frame.resize(arrival.frame.length, 0);
                if arrival.kind == CAPTIONS {
                    arrival.frame.write(&mut self.frame);
                }
                if let Lent::Other(length) = arrival.lent {
                    self.other.resize(length, 0);
                }
                let memory = match arrival.memory() {
                    Some(place) => &mut self.memories[place],
                    None => &mut self.other,
                };
                self.device.arrival(arrival.kind, memory, &self.frame, arrival.seconds, arrival.microseconds);
            }
            Step::Plane { .. } => {}
            Step::Map(one) => (0..one.times).for_each(|_| _ = one.once(Change::Map, &mut self.device)),
            Step::Unmap(one) => (0..one.times).for_each(|_| _ = one.once(Change::Unmap, &mut self.device)),
            Step::Age(age) => {
                if let Some(now) = self.device.accepted(age.kind) {
                    self.device.age(age.kind, age.past(now));
                }
            }
        }
        self.steps.push(step);
    }

    fn step(&mut self) {
        if self.manner == Manner::Openings && self.random.chance(50) {
            return self.opening();
        }
        if self.random.chance(self.manner.hostility()) {
            return self.hostile_step();
        }
        match self.device.opened() {
            None if self.random.chance(40) => self.opening(),
            None => self.any_step(),
            Some(_) => self.useful_step(),
        }
    }

    /// The stream that the next call is about.
    fn kind(&mut self) -> u32 {
        if self.random.chance(self.captions) {
            CAPTIONS
        } else {
            PICTURES
        }
    }

    /// The services that are negotiated.
    fn lines(&self) -> Lines {
        self.device.opened().map_or(Lines::default(), |opened| opened.lines)
    }

    /// Opens with a sheet that is mostly good and memories that mostly hold some buffers.
    fn opening(&mut self) {
        let random = &mut self.random;
        if self.manner == Manner::Full {
            let lengths = STREAMS.map(|_| 4096 * random.between(31, 34) as u64);
            let sheet = sheets::tiny(random).bytes();
            return self.add(Step::Open { sheet, lengths });
        }
        let bad = if self.manner == Manner::Openings { 60 } else { 4 };
        let (sheet, one) = if random.chance(bad) {
            (damage::damaged(random), 4096)
        } else {
            let draft = match random.weighted(&[84, 15, 1]) {
                0 => sheets::small(random),
                1 => sheets::limits(random),
                _ => Draft::bench(),
            };
            let sheet = draft.bytes();
            let (_, device) = crate::model::open(&sheet, [0, 0]);
            let slot = device.opened().map_or(4096, |opened| opened.pictures.slot());
            (sheet, slot)
        };
        // Lines never need more than the least slot.
        let lengths = [memory_length(random, one), memory_length(random, 4096)];
        self.add(Step::Open { sheet, lengths });
    }

    /// A call that is likely to be accepted and to lead on, by what the device keeps.
    fn useful_step(&mut self) {
        let kind = self.kind();
        let Some(stream) = self.device.opened().and_then(|opened| opened.stream(kind)) else { return };
        let (buffers, streaming, frames) = (stream.granted > 0, stream.streaming, stream.frame_size > 0);
        let (incoming, outgoing) = (stream.incoming.len(), stream.outgoing.len());
        let dequeued = stream.granted - incoming - outgoing;
        let is_full = streaming && stream.run.accepted == RUN_LIMIT;
        let mapped = stream.is_mapped();
        if streaming && self.random.below(AGES) == 0 {
            return self.age(kind);
        }
        if buffers && self.random.chance(if mapped { MAPS_MAPPED } else { MAPS }) {
            return self.map_step(kind, mapped);
        }
        // Nothing more can come of a run at its limit but what it holds, which a careful one hands over.
        if is_full && self.manner != Manner::Careful && self.random.chance(15) {
            return self.stop(kind);
        }
        if self.manner == Manner::Careful && streaming {
            return self.careful_step(kind, incoming, outgoing, dequeued);
        }
        if self.manner == Manner::Full {
            return self.full_step(kind, [frames, buffers, streaming]);
        }
        // Buffers, S_FMT, QBUF, STREAMON, arrival, DQBUF, stop, anything.
        let weights = match (buffers, streaming) {
            (false, _) if !frames => [5, 60, 1, 2, 2, 1, 1, 28],
            (false, _) => [35, 20, 1, 2, 2, 1, 1, 38],
            (true, false) => [4, 2, if dequeued > 0 { 45 } else { 3 }, 20, 4, 3, 2, 15],
            (true, true) => {
                let dequeue = if outgoing > 0 { 25 } else { 5 };
                [1, 1, if dequeued > 0 { 25 } else { 2 }, 1, 30, dequeue, 3, 12]
            }
        };
        match self.random.weighted(&weights) {
            0 => self.request(kind, REQBUFS),
            1 => self.request(kind, S_FMT),
            2 => self.request(kind, QBUF),
            3 => self.request(kind, STREAMON),
            4 => self.arrival(kind),
            5 => self.request(kind, DQBUF),
            6 => self.stop(kind),
            _ => self.any_step(),
        }
    }

    /// Something about maps; what is mapped is mostly unmapped again before long.
    fn map_step(&mut self, kind: u32, mapped: bool) {
        // Map, unmap, all unmapped, REQBUFS while mapped, a stop while mapped, a look, both streams, the limit, something wrong.
        let weights = if mapped { [150, 200, 250, 100, 40, 80, 30, 3, 90] } else { [650, 60, 0, 0, 0, 20, 60, 5, 120] };
        match self.random.weighted(&weights) {
            0 => self.map(kind),
            1 => self.unmap(kind),
            2 => self.unmap_all(kind),
            3 => self.ask_while_mapped(kind),
            4 if !self.keeps_run(kind) => {
                self.request(kind, STREAMOFF);
                self.look(kind);
            }
            4 | 5 => self.look(kind),
            6 => STREAMS.into_iter().for_each(|kind| self.map(kind)),
            7 => self.map_to_the_limit(kind),
            _ => self.flawed_map(kind),
        }
    }

    /// A run is on that is not to be stopped beside its own steps.
    fn keeps_run(&self, kind: u32) -> bool {
        matches!(self.manner, Manner::Careful | Manner::Full) && self.device.accepted(kind).is_some()
    }

    /// A buffer of the stream that is granted, if there is one; if `mapped` asks for it, one that is mapped.
    fn slot(&mut self, kind: u32, mapped: bool) -> Option<Mapping> {
        let stream = self.device.opened()?.stream(kind)?;
        Some(maps::granted(&mut self.random, stream, mapped))
    }

    fn map(&mut self, kind: u32) {
        let (again, times) = (self.random.chance(30), self.random.pick(&[1, 1, 1, 2, 3]));
        if let Some(slot) = self.slot(kind, again) {
            self.add(Step::Map(Mapping { times, ..slot }));
        }
    }

    fn unmap(&mut self, kind: u32) {
        let times = self.random.pick(&[1, 1, 1, 1, 2]);
        if let Some(slot) = self.slot(kind, true) {
            self.add(Step::Unmap(Mapping { times, ..slot }));
        }
    }

    fn unmap_all(&mut self, kind: u32) {
        let stream = self.device.opened().and_then(|opened| opened.stream(kind));
        for slot in stream.map_or(Vec::new(), maps::all) {
            self.add(Step::Unmap(slot));
        }
    }

    /// Buffers are asked for while one is mapped, now and then of another kind of memory; then, mostly, all are unmapped, and the
    /// same is asked again.
    fn ask_while_mapped(&mut self, kind: u32) {
        let least = self.random.pick(&[0, 0, 1]);
        let mut argument = arguments::reqbufs(&mut self.random, kind, least);
        put(&mut argument, 8, self.random.pick(&[1, 1, 1, 1, 1, 1, 1, 1, 0, 2]));
        self.add(Step::Request { word: REQBUFS, argument: argument.clone() });
        if self.random.chance(60) && !self.keeps_run(kind) {
            self.unmap_all(kind);
            self.add(Step::Request { word: REQBUFS, argument });
        }
    }

    /// What QUERYBUF tells of a buffer that is mapped, if there is one.
    fn look(&mut self, kind: u32) {
        let mapped = self.device.opened().and_then(|opened| opened.stream(kind)).map(|stream| stream.maps);
        let index = mapped.and_then(|maps| maps.iter().position(|count| *count > 0)).unwrap_or(0);
        let argument = arguments::querybuf(kind, index as u32);
        self.add(Step::Request { word: QUERYBUF, argument });
    }

    /// As many maps as a buffer can have, and more; then it is mostly unmapped again, now and then once too often.
    fn map_to_the_limit(&mut self, kind: u32) {
        let stream = self.device.opened().and_then(|opened| opened.stream(kind));
        let Some(slot) = stream.map(|stream| maps::to_the_limit(&mut self.random, stream)) else { return };
        self.add(Step::Map(slot));
        if self.random.chance(60) {
            let times = self.random.pick(&[1, 254, 255, 255, 256]);
            self.add(Step::Unmap(Mapping { times, ..slot }));
        }
    }

    fn flawed_map(&mut self, kind: u32) {
        let mapping = maps::flawed(&mut self.random, self.device.opened(), kind);
        let step = if self.random.chance(60) { Step::Map(mapping) } else { Step::Unmap(mapping) };
        self.add(step);
    }

    /// The run of a stream grows old, and now and then that of the other one with it.
    fn age(&mut self, kind: u32) {
        let both = self.random.chance(30);
        for one in STREAMS.into_iter().filter(|one| both || *one == kind) {
            let Some(now) = self.device.accepted(one) else { continue };
            let age = ages::age(&mut self.random, one, now);
            if age.accepted > now {
                self.add(Step::Age(age));
            }
        }
    }

    /// In a careful run nothing is dropped or damaged, and the stop comes when all is handed over.
    fn careful_step(&mut self, kind: u32, incoming: usize, outgoing: usize, dequeued: usize) {
        let weights = [
            if dequeued > 0 { 25 } else { 0 },
            if incoming > 0 { 35 } else { 0 },
            if outgoing > 0 { 30 } else { 1 },
            if outgoing == 0 { 5 } else { 0 },
            5,
        ];
        match self.random.weighted(&weights) {
            0 => self.request(kind, QBUF),
            1 => self.whole_arrival(kind),
            2 => self.request(kind, DQBUF),
            3 => self.stop(kind),
            _ => {
                let word = self.random.pick(&[G_FMT, QUERYBUF, G_CTRL, QUERYCTRL, G_CROP, S_CROP, S_CTRL, QUERYCAP]);
                self.request(kind, word);
            }
        }
    }

    /// The same call many times over, so that a queue is filled or emptied whole; a stop is rare.
    fn full_step(&mut self, kind: u32, [frames, buffers, streaming]: [bool; 3]) {
        if !frames {
            return self.request(kind, S_FMT);
        }
        if !buffers {
            let argument = arguments::reqbufs(&mut self.random, kind, 32);
            return self.add(Step::Request { word: REQBUFS, argument });
        }
        if !streaming {
            return self.request(kind, STREAMON);
        }
        let times = self.random.pick(&[1, 3, 33, 40]);
        match self.random.below(80) {
            0 => self.stop(kind),
            1..=10 => self.any_step(),
            11..=35 => (0..times).for_each(|_| self.request(kind, QBUF)),
            36..=58 => (0..times).for_each(|_| self.whole_arrival(kind)),
            _ => (0..times).for_each(|_| self.request(kind, DQBUF)),
        }
    }

    fn any_step(&mut self) {
        let kind = self.kind();
        match self.random.below(17) {
            0 => self.plane(),
            1 => self.arrival(kind),
            16 => self.flawed_map(kind),
            2..=5 => {
                let word = self.random.pick(&[S_CTRL, S_CTRL, G_CTRL, QUERYCTRL, TRY_FMT, S_CROP]);
                self.request(kind, word);
            }
            _ => {
                let (word, _) = self.random.pick(&ALL);
                self.request(kind, word);
            }
        }
    }

    fn stop(&mut self, kind: u32) {
        if self.random.chance(70) {
            self.request(kind, STREAMOFF);
        } else {
            let argument = arguments::reqbufs(&mut self.random, kind, 0);
            self.add(Step::Request { word: REQBUFS, argument });
        }
    }

    /// A well made argument for a known word.
    fn request(&mut self, kind: u32, word: u32) {
        let argument = arguments::argument(&mut self.random, self.device.opened(), kind, word);
        self.add(Step::Request { word, argument });
    }

    fn plane(&mut self) {
        let size = self.device.image_size();
        let frame_length = self.random.pick(&[size, size, size, size.wrapping_sub(1), size + 1, 0, usize::MAX]);
        let plane = self.random.pick(&[0, 1, 2, 3, 4, u32::MAX]);
        self.add(Step::Plane { frame_length, plane });
    }

    /// A frame that its stream takes: a picture of the image size, unless that is too long to be made, or caption lines.
    fn whole(&mut self, kind: u32) -> Arrival {
        let lines = self.lines();
        let frame = match kind {
            CAPTIONS => captions::whole(&mut self.random, &lines),
            _ => Frame::plain(self.device.image_size().min(LONGEST_FRAME), self.random.draw()),
        };
        let seconds = self.random.pick(&[0, 1, 1000, -1, i32::MIN, i32::MAX, 86_400]);
        let microseconds = self.random.pick(&[0, 1, 40_000, 500_000, 999_999]);
        Arrival { kind, lent: Lent::Own, frame, seconds, microseconds }
    }

    fn whole_arrival(&mut self, kind: u32) {
        let arrival = self.whole(kind);
        self.add(Step::Arrival(arrival));
    }

    /// A frame that is whole most of the time.
    fn arrival(&mut self, kind: u32) {
        if self.random.chance(75) {
            self.whole_arrival(kind);
        } else {
            self.hostile_arrival(kind);
        }
    }

    fn hostile_arrival(&mut self, kind: u32) {
        let (whole, lines) = (self.whole(kind), self.lines());
        let length = whole.memory().map_or(0, |place| self.memories[place].len());
        let arrival = hostile::arrival(&mut self.random, whole, [&lines, &self.earlier], length);
        self.add(Step::Arrival(arrival));
    }

    fn hostile_step(&mut self) {
        let kind = self.kind();
        match self.random.below(21) {
            0 => self.plane(),
            1 => self.opening(),
            2..=4 => self.hostile_arrival(kind),
            5 => self.flawed_map(kind),
            _ => {
                let (word, argument) = hostile::request(&mut self.random, self.device.opened(), kind);
                self.add(Step::Request { word, argument });
            }
        }
    }
}

/// A copy of the argument in a buffer that is large enough for every known word.
fn answer_of<'a>(buffer: &'a mut [u8; 512], argument: &[u8]) -> &'a mut [u8] {
    let length = argument.len().min(buffer.len());
    buffer[..length].copy_from_slice(&argument[..length]);
    &mut buffer[..length]
}

/// Room for some slots, often with bytes left over, sometimes for none, rarely more than is allowed.
fn memory_length(random: &mut Random, slot: u64) -> u64 {
    let most = 200_000 / slot;
    let slots = match random.below(20) {
        0..=9 => random.between(1, 5) as u64,
        10..=15 => random.between(2, 12) as u64,
        16 | 17 => random.between(30, 40) as u64,
        _ => return odd_memory_length(random, slot),
    };
    let over = if random.chance(50) { 0 } else { random.below(4096) as u64 };
    slots.min(most.max(1)) * slot.min(400_000) + over
}

fn odd_memory_length(random: &mut Random, slot: u64) -> u64 {
    match random.below(8) {
        0 | 1 => 0,
        2 => random.below(4096) as u64,
        3 | 4 => slot.min(400_000) - 1,
        5 => 1 << 30,
        6 => (1 << 30) + 1,
        _ => random.pick(&[u64::MAX, 1 << 32, (1 << 30) - 1, 1 << 31]),
    }
}

/// A buffer that is dequeued, if there is one.
pub fn dequeued(stream: &Stream, random: &mut Random) -> Option<usize> {
    let granted = stream.granted;
    if granted == 0 {
        return None;
    }
    let from = random.below(granted);
    (0..granted).map(|place| (from + place) % granted).find(|index| matches!(stream.places[*index], Place::Dequeued))
}
