//! Devices of any content: random bytes, or an opened device with some of its bytes changed. No history leads to them,
//! so they are not compared with the model. They must be answered, within the numbers that exist, and a refused call
//! must change nothing. Of an arrival more can be told: the limit goes by the count of a run and the number by the word that
//! has the next one, whether or not the two agree. Of maps all can be told: they go by the word of each buffer.

use crate::coverage::{Coverage, NUMBERS};
use crate::ffi::{at, Device, DEVICE_SIZE};
use crate::generate::{self, captions, sheets};
use crate::guarded::Guarded;
use crate::model::bytes::{half, put, word};
use crate::model::services::Lines;
use crate::model::words::{size, type_at, DQBUF, G_FMT, QBUF, QUERYBUF, REQBUFS};
use crate::model::RUN_LIMIT;
use crate::random::{self, Random};
use crate::recorder::{Arrived, Recorder, BLANK, CAPTIONS, COMPLETE, IGNORED, PICTURES, REFUSED, STORED, STREAMS};
use crate::session::{Arrival, Change, Frame, Lent, Mapping, Step};
use crate::show;

/// Numbers for words of 64 bits: small, about 32, about 255, about 2^32, about 2^63 and about 2^64.
pub const NUMBERS_64: [u64; 28] = [
    0,
    1,
    2,
    7,
    8,
    9,
    30,
    31,
    32,
    33,
    63,
    64,
    254,
    255,
    256,
    4096,
    1 << 31,
    (1 << 32) - 2,
    (1 << 32) - 1,
    1 << 32,
    (1 << 32) + 1,
    (1 << 32) + 31,
    (1 << 63) - 2,
    (1 << 63) - 1,
    1 << 63,
    u64::MAX - 31,
    u64::MAX - 1,
    u64::MAX,
];

/// The same for words of 32 bits.
pub const NUMBERS_32: [u32; 12] = [0, 1, 2, 31, 32, 33, 255, 4096, 0x7fff_ffff, 0x8000_0000, u32::MAX - 1, u32::MAX];

/// The same for sets of services: all offered, one, none, some that nothing offers.
pub const NUMBERS_16: [u16; 8] = [0, 1, 0x400, 0x1000, 0x1001, 0x4000, 0x5401, u16::MAX];

/// A map or unmap that a session makes many times over is made so often at most.
const MOST_TIMES: u32 = 3;

/// The memories that are lent: of the pictures, and of the captions.
pub type Memories = [Guarded; 2];

/// Runs about this many calls; says what went wrong, if anything did.
pub fn run(seed: u64, calls: u64) -> Result<Coverage, String> {
    let mut coverage = Coverage::default();
    let mut index = 0;
    while coverage.calls < calls {
        let seed = random::mix(seed.wrapping_add(1) ^ random::mix(index));
        one(seed, &mut coverage).map_err(|fault| format!("device of any content, seed {seed:#x}: {fault}"))?;
        index += 1;
    }
    Ok(coverage)
}

/// One device and the steps of one session on it.
fn one(seed: u64, coverage: &mut Coverage) -> Result<(), String> {
    let mut random = Random::new(seed);
    let lengths = STREAMS.map(|_| random.pick(&[0, 100, 4096, 20_000, 50_000]));
    let zero = random.chance(10);
    let mut device = if zero { Device::zeroed() } else { content(&mut random, lengths.map(|length| length as u64)) };
    let mut memories = Memories::default();
    for (memory, length) in memories.iter_mut().zip(lengths) {
        memory.reset(length, 0);
        random.fill(memory.body_mut());
    }
    let session = generate::session(random.draw());
    for step in &session.steps {
        if zero {
            closed(&mut device, step, memories[0].body_mut())?;
        } else {
            spoiled(&mut device, step, &mut memories, &mut random, coverage)
                .map_err(|fault| format!("{}: {fault}", show::step(step)))?;
        }
        coverage.calls += step.calls().min(MOST_TIMES.into());
    }
    Ok(())
}

/// A device of zeros refuses every call with 22, is BLANK and stays a device of zeros.
fn closed(device: &mut Device, step: &Step, memory: &mut [u8]) -> Result<(), String> {
    let number = match step {
        Step::Open { .. } | Step::Age(_) => 22,
        Step::Request { word, argument } => device.request(*word, &mut argument.clone()),
        Step::Arrival(one) => {
            let arrived = device.arrival(one.kind, memory, &[], one.seconds, one.microseconds);
            check((arrived.answer, arrived.buffer) == (REFUSED, 0), "zeros answered an arrival")?;
            arrived.number
        }
        Step::Plane { frame_length, plane } => device.plane(*frame_length, *plane).number,
        Step::Map(mapping) => mapping.once(Change::Map, device),
        Step::Unmap(mapping) => mapping.once(Change::Unmap, device),
    };
    let blank = STREAMS.iter().all(|kind| device.verdict(*kind) == BLANK);
    check(number == 22 && blank, "a device of zeros is not closed")?;
    check(kept(device) == [0; DEVICE_SIZE], "a device of zeros changed")
}

/// A step on a device of any content; now and then one more word of it is changed.
fn spoiled(
    device: &mut Device,
    step: &Step,
    memories: &mut Memories,
    random: &mut Random,
    coverage: &mut Coverage,
) -> Result<(), String> {
    if random.chance(5) {
        change_word(random, device, at::SETUP);
    }
    match step {
        // A device that was opened well gets one change at least.
        Step::Open { sheet, .. } if random.chance(50) => {
            device.open(sheet, memories.each_ref().map(|memory| memory.body().len() as u64));
            change_word(random, device, at::SETUP);
        }
        Step::Open { .. } => {}
        Step::Request { word, argument } => coverage.request(*word, argument, request(device, *word, argument)?),
        Step::Arrival(one) => coverage.arrival(one.kind, arrival(device, memories, one, random)?),
        Step::Plane { frame_length, plane: index } => plane(device, *frame_length, *index)?,
        Step::Map(mapping) => changes(device, Change::Map, mapping, random, coverage)?,
        Step::Unmap(mapping) => changes(device, Change::Unmap, mapping, random, coverage)?,
        // The count alone: the next number stays what it was, and whether a run is on does not matter.
        Step::Age(age) => {
            if let Some(stream) = Device::stream(age.kind) {
                device.put_word(stream + at::ACCEPTED, age.accepted);
            }
        }
    }
    verdicts(device)
}

/// The verdicts, with what holds of every verdict.
pub fn verdicts(device: &Device) -> Result<(), String> {
    check(STREAMS.iter().all(|kind| device.verdict(*kind) <= COMPLETE), "a verdict that is none")?;
    check(device.verdict(5) == BLANK, "a verdict on no stream")
}

/// A device of some content; its memories are mostly of these lengths.
fn content(random: &mut Random, lengths: [u64; 2]) -> Device {
    let mut device = Device::zeroed();
    match random.below(4) {
        0 => random.fill(&mut device.bytes),
        1 => {
            device.open(&sheets::small(random).bytes(), lengths);
            random.fill(&mut device.bytes[at::SETUP..]);
        }
        2 => {
            device.open(&sheets::limits(random).bytes(), lengths);
            for _ in 0..random.between(1, 40) {
                change_word(random, &mut device, at::SETUP);
            }
        }
        _ => {
            device.open(&sheets::small(random).bytes(), lengths);
            for _ in 0..random.between(1, 20) {
                change_word(random, &mut device, 0);
            }
        }
    }
    if random.chance(50) {
        for at in (at::SERVICES..at::END).step_by(2) {
            device.put_services(at, services(random));
        }
    }
    let opened = random.chance(80);
    if opened {
        device.bytes[at::SETUP..at::SETUP + 4].copy_from_slice(&1u32.to_le_bytes());
    }
    for (stream, length) in at::STREAMS.into_iter().zip(lengths) {
        if random.chance(50) {
            make_line(random, &mut device, stream);
        }
        make_maps(random, &mut device, stream);
        if opened {
            // Its memory counts as the one that is lent.
            device.put_word(stream + at::LENGTH, length);
        }
        if random.chance(30) {
            device.put_word(stream + at::STREAMING, 1);
        }
        if random.chance(10) {
            // Near the last number of a run, or near its end.
            let edge = random.pick(&[1 << 32, RUN_LIMIT]);
            device.put_word(stream + at::ACCEPTED, edge + random.below(5) as u64 - 3);
            let next = number(random);
            device.put_word(stream + at::NEXT_NUMBER, next);
        }
    }
    device
}

/// A line of buffers that may be right or nearly so: more of them than there can be, some of them twice.
fn make_line(random: &mut Random, device: &mut Device, stream: usize) {
    let head = number(random);
    device.put_word(stream + at::HEAD, head);
    for count in [at::GRANTED, at::LINED, at::HOLDING] {
        device.put_word(stream + count, random.below(36) as u64);
    }
    for place in 0..32 {
        device.put_word(stream + at::INDEX + 8 * place, random.below(34) as u64);
    }
}

/// Mostly no maps, so that buffers can be asked for, else some of them, or what the words held before.
fn make_maps(random: &mut Random, device: &mut Device, stream: usize) {
    let Some(share) = random.pick(&[None, Some(0), Some(0), Some(5), Some(50)]) else { return };
    for index in 0..32 {
        let some = [1, 2, 254, 255, 256, number(random)];
        let count = if random.chance(share) { random.pick(&some) } else { 0 };
        device.put_word(stream + at::MAPS + 8 * index, count);
    }
}

/// A number for a word of 64 bits.
fn number(random: &mut Random) -> u64 {
    if random.chance(15) {
        random.draw()
    } else {
        random.pick(&NUMBERS_64)
    }
}

/// A set for a line.
fn services(random: &mut Random) -> u16 {
    if random.chance(15) {
        random.word() as u16
    } else {
        random.pick(&NUMBERS_16)
    }
}

/// One word of the device becomes another: one of the thirteen numbers of a stream, any word of a stream, a set of services, or
/// one of the words of 32 bits between `from` and the streams.
fn change_word(random: &mut Random, device: &mut Device, from: usize) {
    let stream = random.pick(&at::STREAMS);
    match random.weighted(&[4, 3, 1, 3]) {
        0 => {
            let at = stream + 8 * random.below(13);
            device.put_word(at, number(random));
        }
        1 => {
            let at = stream + 8 * random.below(at::STREAM / 8);
            device.put_word(at, number(random));
        }
        2 => {
            let at = at::SERVICES + 2 * random.below((at::END - at::SERVICES) / 2);
            device.put_services(at, services(random));
        }
        _ => {
            let at = from + 4 * random.below((at::VIDEO - from) / 4);
            let word = if random.chance(10) { random.word() } else { random.pick(&NUMBERS_32) };
            device.bytes[at..at + 4].copy_from_slice(&word.to_le_bytes());
        }
    }
}

pub fn check(holds: bool, fault: &str) -> Result<(), String> {
    if holds {
        Ok(())
    } else {
        Err(fault.into())
    }
}

/// All that the device keeps.
fn kept(device: &Device) -> Vec<u8> {
    let mut bytes = Vec::new();
    device.content(&mut bytes);
    bytes
}

/// A request, with what holds of every request.
pub fn request(device: &mut Device, word: u32, argument: &[u8]) -> Result<u32, String> {
    let before = device.clone();
    let mut lent = Guarded::default();
    lent.set(argument, argument.len());
    let number = device.request(word, lent.body_mut());
    check(NUMBERS.contains(&number), "a number that is none")?;
    check(lent.intact(), "a byte outside the argument changed")?;
    let write_only = word >> 30 == 1;
    check(!(number != 0 || write_only) || lent.body() == argument, "an argument changed that had to stay")?;
    check(number == 0 || device.bytes == before.bytes, "a refusal changed the device")?;
    told_of_maps(&before, word, argument, number, lent.body())?;
    Ok(number)
}

/// The device before a request, its argument, and what it gave back. Buffers are refused with 16 while any word of a map is not
/// zero, and in a run if some are asked for; the flag of a map is told by the word of that buffer.
fn told_of_maps(before: &Device, request: u32, asked: &[u8], number: u32, answer: &[u8]) -> Result<(), String> {
    let kind = type_at(request).filter(|_| asked.len() == size(request)).map(|at| word(asked, at));
    let Some((maps, stream)) = kind.and_then(|kind| before.maps(kind).zip(Device::stream(kind))) else { return Ok(()) };
    let is_open = word(&before.bytes, at::SETUP) != 0;
    match request {
        REQBUFS if is_open && word(asked, 8) == 1 => {
            let in_run = before.word(stream + at::STREAMING) != 0 && word(asked, 0) > 0;
            check((number == 16) == (in_run || maps != [0; 32]), "16, or none, that does not go by maps and run")
        }
        QUERYBUF | QBUF | DQBUF if number == 0 => {
            let Some(count) = maps.get(word(answer, 0) as usize) else { return Ok(()) };
            check(word(answer, 12) & 1 == u32::from(*count != 0), "a flag that does not go by the word of the buffer")
        }
        _ => Ok(()),
    }
}

/// The slot of a stream, by the size of its frames as the device tells it; nothing if it is closed, or there is no such stream.
fn slot(device: &Device, kind: u32) -> Option<u64> {
    let mut format = vec![0; size(G_FMT)];
    put(&mut format, 0, kind);
    let is_told = device.clone().request(G_FMT, &mut format) == 0;
    let frame_size = word(&format, if kind == PICTURES { 24 } else { 104 });
    is_told.then(|| u64::from(frame_size).next_multiple_of(4096))
}

/// The slot of a buffer, as far as 32 bits can tell it.
pub fn slot_of(device: &Device, kind: u32, index: u64) -> Mapping {
    let slot = slot(device, kind).unwrap_or(4096);
    Mapping { kind, offset: (index * slot) as u32, length: slot as u32, times: 1 }
}

/// Where the word stands of the buffer that has this offset and length, if there is one.
fn map_word(device: &Device, mapping: &Mapping) -> Option<usize> {
    let (slot, stream) = slot(device, mapping.kind).zip(Device::stream(mapping.kind))?;
    let there = device.word(stream + at::GRANTED).min(32);
    let is_at = |index: &u64| (index * slot, slot) == (mapping.offset.into(), mapping.length.into());
    let index = (0..there).filter(|_| slot > 0).find(is_at)?;
    Some(stream + at::MAPS + 8 * index as usize)
}

/// A map or unmap, by what holds of every one: the number goes by the word, and no other byte changes.
pub fn change(device: &mut Device, change: Change, mapping: &Mapping) -> Result<u32, String> {
    let mut expected = device.clone();
    let number = match (change, map_word(device, mapping).map(|at| (at, device.word(at)))) {
        (_, None) | (Change::Unmap, Some((_, 0))) => 22,
        (Change::Map, Some((_, 255..))) => 75,
        (Change::Map, Some((at, count))) => {
            expected.put_word(at, count + 1);
            0
        }
        (Change::Unmap, Some((at, count))) => {
            expected.put_word(at, count - 1);
            0
        }
    };
    let got = mapping.once(change, device);
    check(got == number, &format!("{change:?} gave {got} instead of {number}"))?;
    check(device.bytes == expected.bytes, "another byte than that of the count changed")?;
    Ok(number)
}

/// Maps or unmaps, mostly of a place that is a buffer's by what the device keeps.
fn changes(
    device: &mut Device,
    to: Change,
    mapping: &Mapping,
    random: &mut Random,
    coverage: &mut Coverage,
) -> Result<(), String> {
    let fitting = slot_of(device, mapping.kind, random.below(34) as u64);
    let mapping = if random.chance(70) { &fitting } else { mapping };
    for _ in 0..mapping.times.min(MOST_TIMES) {
        coverage.change(to, mapping.kind, change(device, to, mapping)?);
    }
    Ok(())
}

/// A frame that a device of any content would take, if there is one that is not too long: it has any image size, and any
/// services.
fn fitting(device: &mut Device, kind: u32, random: &mut Random) -> Option<Frame> {
    let mut format = vec![0; size(G_FMT)];
    format[0] = kind as u8;
    device.request(G_FMT, &mut format);
    match kind {
        PICTURES => {
            let size = word(&format, 24) as usize;
            (size <= 100_000).then(|| Frame::plain(size, random.draw()))
        }
        CAPTIONS => {
            let sets =
                std::array::from_fn(|field| std::array::from_fn(|line| half(&format, 6 + 48 * field + 2 * line)));
            Some(captions::whole(random, &Lines(sets)))
        }
        _ => None,
    }
}

/// An arrival, with what holds of every arrival.
pub fn arrival(
    device: &mut Device,
    memories: &mut Memories,
    one: &Arrival,
    random: &mut Random,
) -> Result<Arrived, String> {
    let held = memories.each_ref().map(|memory| memory.body().to_vec());
    let wanted = if random.chance(70) { fitting(device, one.kind, random) } else { None };
    let before = kept(device);
    let count = counted(device, one.kind);
    let told = wanted.as_ref().unwrap_or(&one.frame);
    let mut frame = Guarded::default();
    frame.reset(told.length, 3);
    told.write(frame.body_mut());
    let sent = frame.body().to_vec();
    let mut other = Guarded::default();
    other.reset(if let Lent::Other(length) = one.lent { length } else { 0 }, 5);
    let lent = match one.memory() {
        Some(place) => &mut memories[place],
        None => &mut other,
    };
    let arrived = device.arrival(one.kind, lent.body_mut(), frame.body(), one.seconds, one.microseconds);
    check(arrived.answer <= STORED, "an answer that is none")?;
    let intact = memories.iter().chain([&frame, &other]).all(Guarded::intact);
    check(intact, "a byte outside what was lent changed")?;
    check(frame.body() == sent, "the frame changed")?;
    for (place, (memory, held)) in memories.iter().zip(&held).enumerate() {
        let written = arrived.answer == STORED && one.memory() == Some(place);
        check(written || memory.body() == held, "memory changed without a stored frame")?;
    }
    if arrived.answer == REFUSED {
        check(arrived.number != 0 && NUMBERS.contains(&arrived.number), "a refusal without its number")?;
        check(kept(device) == before, "a refusal changed the device")?;
    }
    if let (Some(before), Some(after)) = (count, counted(device, one.kind)) {
        numbered(before, after, arrived)?;
    }
    Ok(arrived)
}

/// How many the run of a stream accepted, and the word that has the next number.
fn counted(device: &Device, kind: u32) -> Option<[u64; 2]> {
    let stream = Device::stream(kind)?;
    Some([at::ACCEPTED, at::NEXT_NUMBER].map(|at| device.word(stream + at)))
}

/// An arrival between two such counts. Of the next number only 32 bits count.
fn numbered([accepted, next]: [u64; 2], after: [u64; 2], arrived: Arrived) -> Result<(), String> {
    let number = next as u32;
    match arrived.answer {
        REFUSED => check(arrived.number != 75 || accepted >= RUN_LIMIT, "75 below the limit"),
        IGNORED => Ok(()),
        answer => {
            check(answer != STORED || arrived.number == number, "a number that was not the next one")?;
            check(accepted < RUN_LIMIT, "accepted past the limit")?;
            check(after == [accepted + 1, number.wrapping_add(1).into()], "an accepted arrival that was not counted")
        }
    }
}

/// A plane, with what holds of every plane.
pub fn plane(device: &Device, frame_length: usize, plane: u32) -> Result<(), String> {
    let answer = device.plane(frame_length, plane);
    let inside = answer.start.checked_add(answer.length).is_some_and(|end| end <= frame_length);
    check(matches!(answer.number, 0 | 22), "a number that is none")?;
    check(inside, "a plane outside its frame")?;
    check(answer.number == 0 || (answer.start, answer.length) == (0, 0), "a refused plane with bytes")
}
