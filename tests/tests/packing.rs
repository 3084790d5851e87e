//! The packing of caption lines into a block and back, on the model and, if it is linked, on the library: blocks byte by
//! byte, every rule at its edge, what holds of writing and reading together, and calls at random. Faulty copies of the model
//! show that these find what there is to find.

use tollgutter_tests::guarded::Guarded;
use tollgutter_tests::model::bytes::{put, word};
use tollgutter_tests::model::services::{CAPTION_525, TELETEXT_B, VPS, WSS_625};
use tollgutter_tests::packing::cases::{self, flip, put_head};
use tollgutter_tests::packing::compare::Comparison;
use tollgutter_tests::packing::faulty::{Fault, Faulty, FAULTS};
use tollgutter_tests::packing::judge::{judge, places, Judged};
use tollgutter_tests::packing::seen::Seen;
use tollgutter_tests::packing::{self, Call, Model, Packer, Way};
use tollgutter_tests::random::{self, Random};

const SEED: u64 = 5;
const CALLS: u64 = 60_000;
const ROUND_TRIPS: u64 = 10_000;
/// A fault has to be found in so many calls.
const MOST_CALLS: u64 = 20_000;

/// What outputs hold before a call.
const BEFORE: u8 = 0xEE;

/// Service, identifier, and the bytes that it carries.
const SERVICES: [(u32, u8, usize); 4] =
    [(TELETEXT_B as u32, 1, 42), (VPS as u32, 7, 13), (CAPTION_525 as u32, 4, 2), (WSS_625 as u32, 5, 2)];

fn carried(service: u32) -> usize {
    SERVICES.iter().find(|(id, _, _)| *id == service).expect("one of the four").2
}

/// A record; all that is not told is anything.
fn record(head: [u32; 3], payload: &[u8]) -> Vec<u8> {
    let mut record = vec![0xA5; 64];
    put_head(&mut record, head);
    record[16..16 + payload.len()].copy_from_slice(payload);
    record
}

/// The same as the reader gives it.
fn plain(head: [u32; 3], payload: &[u8]) -> Vec<u8> {
    let mut record = record(head, payload);
    record[12..16].fill(0);
    record[16 + payload.len()..].fill(0);
    record
}

/// A line of a block.
fn line(identifier: u8, payload: &[u8]) -> Vec<u8> {
    let mut line = vec![0; 43];
    line[0] = identifier;
    line[1..1 + payload.len()].copy_from_slice(payload);
    line
}

/// The number that a call gives, and its output. What it is lent has guards, and what goes in stays as it was.
fn call<P: Packer>(packer: &P, call: &Call) -> (u32, Vec<u8>) {
    let (mut input, mut output) = (Guarded::default(), Guarded::default());
    input.set(&call.input, call.room);
    output.set(&vec![BEFORE; call.room], call.input.len());
    let number = packer.call(call.way, input.body(), output.body_mut());
    assert!(input.intact() && output.intact() && input.body() == call.input, "{call}");
    (number, output.body().to_vec())
}

/// A call that must be accepted: its output, of this length.
fn done<P: Packer>(packer: &P, way: Way, input: &[u8], room: usize) -> Vec<u8> {
    let made = Call { way, input: input.to_vec(), room };
    let (number, output) = call(packer, &made);
    assert_eq!(number, 0, "{made}");
    assert!(judge(&made).is_whole(), "{made}");
    output
}

fn written<P: Packer>(packer: &P, lines: &[u8]) -> Vec<u8> {
    done(packer, Way::Write, lines, packer.block_length(lines.len() / 64))
}

/// A call that must be refused, and write nothing: its flaw.
fn refused<P: Packer>(packer: &P, way: Way, input: &[u8], room: usize) -> Judged {
    let made = Call { way, input: input.to_vec(), room };
    let (number, output) = call(packer, &made);
    assert_eq!(number, 22, "{made}");
    assert!(output.iter().all(|byte| *byte == BEFORE), "{made}");
    let flaw = judge(&made);
    assert!(!flaw.is_whole(), "{made}");
    flaw
}

/// Everything that is written out by hand.
fn by_hand<P: Packer>(packer: P) {
    lengths(&packer);
    blocks(&packer);
    each_line_alone(&packer);
    wrong_records(&packer);
    every_length(&packer);
    every_opening(&packer);
    every_line(&packer);
    every_bit(&packer);
    unspecified_bytes(&packer);
}

fn lengths<P: Packer>(packer: &P) {
    for (lines, length) in [(0, 12), (1, 55), (2, 98), (34, 1474), (35, 1517), (36, 1552), (37, 0), (38, 0), (72, 0)] {
        assert_eq!(packer.block_length(lines), length, "{lines} lines");
    }
    // Lengths that would come out small if they were reckoned in a word of 64 or of 32 bits.
    for lines in [1 << 32, (1 << 32) / 43 + 1, usize::MAX / 43, usize::MAX / 43 + 1, 1 << 63, usize::MAX] {
        assert_eq!(packer.block_length(lines), 0, "{lines} lines");
    }
}

/// Blocks byte by byte.
fn blocks<P: Packer>(packer: &P) {
    assert_eq!(written(packer, &[]), b"itv0\0\0\0\0\0\0\0\0");
    assert_eq!(done(packer, Way::Read, b"itv0\0\0\0\0\0\0\0\0", 0), []);

    // A caption of two bytes on line 21 of the first field: bit 15.
    let caption = [0x1000, 0, 21];
    let mut block = b"itv0\x00\x80\x00\x00\x00\x00\x00\x00\x04\x12\x34".to_vec();
    block.extend([0; 40]);
    assert_eq!(block.len(), 55);
    assert_eq!(written(packer, &record(caption, &[0x12, 0x34])), block);
    assert_eq!(done(packer, Way::Read, &block, 64), plain(caption, &[0x12, 0x34]));

    // The bits at the ends of fields and masks, 0, 17, 18, 31, 32 and 35, the last one first.
    let (long, short) = (&[9; 42][..], &[1, 2, 3, 4, 5, 6, 7, 8, 9, 10, 11, 12, 13][..]);
    let heads = [[0x400, 1, 23], [0x4000, 1, 20], [0x1000, 1, 19], [1, 1, 6], [0x4000, 0, 23], [0x400, 0, 6]];
    let payloads = [short, &[7, 8], &[5, 6], long, &[3, 4], short];
    let told = || heads.into_iter().zip(payloads);
    let lines: Vec<u8> = told().flat_map(|(head, payload)| record(head, payload)).collect();
    let in_order: Vec<u8> = told().rev().flat_map(|(head, payload)| plain(head, payload)).collect();
    let identifiers = [7, 5, 4, 1, 5, 7].into_iter().zip(payloads).rev();
    let body = identifiers.flat_map(|(identifier, payload)| line(identifier, payload));
    let block: Vec<u8> = b"itv0\x01\x00\x06\x80\x09\x00\x00\x00".iter().copied().chain(body).collect();
    assert_eq!(block.len(), 12 + 43 * 6);
    assert_eq!(written(packer, &lines), block);
    assert_eq!(done(packer, Way::Read, &block, 6 * 64), in_order);

    all_lines(packer);
}

/// All 36 lines: no masks.
fn all_lines<P: Packer>(packer: &P) {
    let told = |(place, (field, number))| (SERVICES[place % 4], field, number, [place as u8 + 1; 42]);
    let (mut lines, mut in_order, mut block) = (Vec::new(), Vec::new(), b"ITV0".to_vec());
    for ((id, identifier, carried), field, number, payload) in places().enumerate().map(told) {
        lines.splice(..0, record([id, field, number], &payload));
        in_order.extend(plain([id, field, number], &payload[..carried]));
        block.extend(line(identifier, &payload[..carried]));
    }
    assert_eq!((lines.len(), block.len()), (2304, 1552));
    assert_eq!(written(packer, &lines), block);
    assert_eq!(done(packer, Way::Read, &block, 2304), in_order);
}

/// Every service on every line: its bit, its identifier, and no more bytes than it carries.
fn each_line_alone<P: Packer>(packer: &P) {
    for (bit, (field, number)) in places().enumerate() {
        for (id, identifier, carried) in SERVICES {
            let payload: Vec<u8> = (1..=48).collect();
            let block = written(packer, &record([id, field, number], &payload));
            assert_eq!((&block[..4], block.len()), (&b"itv0"[..], 55));
            assert_eq!(block[4..12], (1_u64 << bit).to_le_bytes());
            assert_eq!(block[12..], line(identifier, &payload[..carried]));
            let lines = done(packer, Way::Read, &block, 64);
            assert_eq!(lines, plain([id, field, number], &payload[..carried]));
        }
    }
}

/// Heads with one flaw each.
const WRONG: [(Judged, [u32; 3]); 25] = [
    (Judged::NoService, [0, 0, 21]),
    (Judged::TwoServices, [0x1001, 0, 21]),
    (Judged::TwoServices, [0x5401, 0, 21]),
    (Judged::UnknownService, [2, 0, 21]),
    (Judged::UnknownService, [0x1002, 0, 21]),
    (Judged::UnknownService, [0x8000, 0, 21]),
    (Judged::UnknownService, [0x1_1000, 0, 21]),
    (Judged::UnknownService, [0x8000_0001, 0, 21]),
    (Judged::UnknownService, [0x1000_0000, 0, 21]),
    // Identifiers are no services.
    (Judged::UnknownService, [4, 0, 21]),
    (Judged::UnknownService, [5, 0, 21]),
    (Judged::UnknownService, [7, 0, 21]),
    (Judged::Field, [0x1000, 2, 21]),
    (Judged::Field, [0x1000, 0x100, 21]),
    (Judged::Field, [0x1000, 0x8000_0000, 21]),
    (Judged::Field, [0x1000, u32::MAX, 21]),
    (Judged::LineTooLow, [0x1000, 0, 0]),
    (Judged::LineTooLow, [0x1000, 0, 5]),
    // Would be line 23 of the first field, if there were no end between the two.
    (Judged::LineTooLow, [0x1000, 1, 5]),
    // Would be line 6 and line 23 of the second field.
    (Judged::LineTooHigh, [0x1000, 0, 24]),
    (Judged::LineTooHigh, [0x1000, 0, 41]),
    (Judged::LineTooHigh, [0x1000, 1, 24]),
    (Judged::LineTooHigh, [0x1000, 0, 0x115]),
    (Judged::LineTooHigh, [0x1000, 0, 0x8000_0015]),
    (Judged::LineTooHigh, [0x1000, 0, u32::MAX]),
];

fn wrong_records<P: Packer>(packer: &P) {
    let good = [[1, 0, 7], [0x400, 1, 16], [0x4000, 1, 23]].map(|head| record(head, &[]));
    let twice = [1, 0x400, 0x1000].map(|id| (Judged::LineTwice, [id, 1, 16]));
    for (flaw, head) in WRONG.into_iter().chain(twice) {
        // Before, between and behind good ones, with an output for all of them or for the good ones.
        for at in 0..=good.len() {
            let mut records = good.to_vec();
            records.insert(at, record(head, &[]));
            for room in [12 + 43 * 4, 12 + 43 * 3, 0, 1552] {
                assert_eq!(refused(packer, Way::Write, &records.concat(), room), flaw, "{head:?}");
            }
        }
    }
    // More than all lines cannot but have one twice.
    let all: Vec<u8> = places().flat_map(|(field, number)| record([1, field, number], &[])).collect();
    for (again, room) in [1, 2, 36].into_iter().flat_map(|again| [0, 12, 1552, 1560, 1603].map(|room| (again, room))) {
        let lines = [&all, &all[..64 * again]].concat();
        assert_eq!(refused(packer, Way::Write, &lines, room), Judged::LineTwice);
    }
}

/// Of lines, of blocks and of outputs every length but the right one is refused.
fn every_length<P: Packer>(packer: &P) {
    for count in [0, 1, 2, 34, 35, 36] {
        let random = &mut Random::new(count as u64);
        let (lines, block) = (cases::lines(random, count), cases::block(random, count));
        let whole = [(Way::Write, lines, block.len()), (Way::Read, block, 64 * count)];
        for (way, input, room) in whole {
            done(packer, way, &input, room);
            for other in (0..2400).filter(|other| *other != room) {
                let flaw = if other < room { Judged::OutputShort } else { Judged::OutputLong };
                assert_eq!(refused(packer, way, &input, other), flaw);
            }
            for other in (0..2500).filter(|other| *other != input.len()) {
                let mut changed = input.clone();
                changed.resize(other, 0);
                refused(packer, way, &changed, room);
            }
        }
    }
}

/// Every other letter in every place, and each opening in the place of the other.
fn every_opening<P: Packer>(packer: &P) {
    for (count, other) in [(0, b"ITV0"), (1, b"ITV0"), (35, b"ITV0"), (36, b"itv0")] {
        let block = cases::block(&mut Random::new(1), count);
        for (at, change) in (0..4).flat_map(|at| (1..=255).map(move |change| (at, change))) {
            let mut changed = block.clone();
            changed[at] ^= change;
            assert_eq!(refused(packer, Way::Read, &changed, 64 * count), Judged::Opening);
        }
        let mut changed = block.clone();
        changed[..4].copy_from_slice(other);
        refused(packer, Way::Read, &changed, 64 * count);
    }
}

/// Every identifier, and every byte of the data that is not zero.
fn every_line<P: Packer>(packer: &P) {
    let block = |identifier: u8, data: [u8; 42]| [&b"itv0\0\0\0\0\x08\0\0\0"[..], &line(identifier, &data)].concat();
    for identifier in 0..=255 {
        let block = block(identifier, [0; 42]);
        match SERVICES.iter().find(|(_, known, _)| *known == identifier) {
            Some((id, _, _)) => assert_eq!(done(packer, Way::Read, &block, 64), plain([*id, 1, 23], &[])),
            None => assert_eq!(refused(packer, Way::Read, &block, 64), Judged::Identifier),
        }
    }
    for ((id, identifier, carried), at) in SERVICES.into_iter().flat_map(|one| (0..42).map(move |at| (one, at))) {
        for byte in [1, 0x80, 255] {
            let mut data = [0; 42];
            data[at] = byte;
            let block = block(identifier, data);
            if at < carried {
                assert_eq!(done(packer, Way::Read, &block, 64), plain([id, 1, 23], &data));
            } else {
                let flaw = refused(packer, Way::Read, &block, 64);
                assert!(matches!(flaw, Judged::VpsNotZero | Judged::CaptionNotZero | Judged::WssNotZero));
            }
        }
    }
}

/// Every bit of the masks, set and not set, with lines and outputs for as many bits as there are then, and as there were.
fn every_bit<P: Packer>(packer: &P) {
    let told = [[1, 0, 6], [0x1000, 0, 21], [0x400, 1, 6], [0x4000, 1, 23]].map(|head| record(head, &[]));
    let block = written(packer, &told.concat());
    for bit in 0..64 {
        let mut changed = block.clone();
        flip(&mut changed, bit);
        let (flaw, more) = match bit {
            0 | 15 | 18 | 35 => (Judged::BlockLong, false),
            36.. => (Judged::HighBit, true),
            _ => (Judged::BlockShort, true),
        };
        for count in 3..=5 {
            assert_eq!(refused(packer, Way::Read, &changed, 64 * count), flaw, "bit {bit}");
        }
        if more {
            changed.extend(line(1, &[]));
        } else {
            changed.truncate(12 + 43 * 3);
        }
        if bit < 36 {
            done(packer, Way::Read, &changed, if more { 64 * 5 } else { 64 * 3 });
        } else {
            assert_eq!(refused(packer, Way::Read, &changed, 64 * 5), Judged::HighBit);
            assert_eq!(refused(packer, Way::Read, &changed, 64 * 4), Judged::HighBit);
        }
    }
    // All bits, which the other opening stands for; and masks behind that opening.
    let all = cases::block(&mut Random::new(2), 36);
    for (flaw, opening, from, count) in
        [(Judged::AllBits, b"itv0", 4, 36), (Judged::AllBits, b"itv0", 4 + 43, 35), (Judged::BlockLong, b"ITV0", 4, 36)]
    {
        let block = [&opening[..], &[255, 255, 255, 255, 15, 0, 0, 0], &all[from..]].concat();
        assert_eq!(refused(packer, Way::Read, &block, 64 * count), flaw);
    }
}

/// Bytes that other writers may add, and that mean nothing: to fill the end up to a multiple of four, and a line that no bit
/// tells of.
fn unspecified_bytes<P: Packer>(packer: &P) {
    for (count, more) in [0, 1, 20, 35, 36].into_iter().flat_map(|count| (1..=4).map(move |more| (count, more))) {
        let mut block = cases::block(&mut Random::new(3), count);
        block.extend(&[0; 4][..more]);
        assert_eq!(refused(packer, Way::Read, &block, 64 * count), Judged::BlockLong);
    }
    for (room, line) in [0, 64].into_iter().flat_map(|room| [line(0, &[]), line(4, &[1, 2])].map(|line| (room, line))) {
        let block = [&b"itv0\0\0\0\0\0\0\0\0"[..], &line].concat();
        assert_eq!(refused(packer, Way::Read, &block, room), Judged::BlockLong);
    }
}

/// What the reader gives for these lines: the first bit first, and zeros for all that is not carried.
fn in_order(lines: &[u8]) -> Vec<u8> {
    let mut records: Vec<Vec<u8>> = lines.chunks(64).map(<[u8]>::to_vec).collect();
    records.sort_by_key(|record| (word(record, 4), word(record, 8)));
    for record in &mut records {
        let end = 16 + carried(word(record, 0));
        record[12..16].fill(0);
        record[end..].fill(0);
    }
    records.concat()
}

/// Writing and reading together, told by the calls of one packer alone.
fn round_trips<P: Packer>(packer: P) {
    for index in 0..ROUND_TRIPS {
        let random = &mut Random::new(random::mix(index));
        let count = random.below(37);
        let lines = cases::lines(random, count);
        let block = written(&packer, &lines);
        let read = done(&packer, Way::Read, &block, lines.len());
        assert!(read == in_order(&lines), "case {index}");
        assert!(written(&packer, &read) == block, "case {index}");
        if count > 0 {
            one_block(&packer, random, &lines, &block);
            other_blocks(&packer, random, &lines, &block);
        }
    }
}

/// Lines that say the same have the same block: in another order, with other reserved words and bytes that are not carried.
fn one_block<P: Packer>(packer: &P, random: &mut Random, lines: &[u8], block: &[u8]) {
    let mut records: Vec<Vec<u8>> = lines.chunks(64).map(<[u8]>::to_vec).collect();
    for place in 1..records.len() {
        records.swap(place, random.below(place + 1));
    }
    assert!(written(packer, &records.concat()) == block);
    for record in &mut records {
        let end = 16 + carried(word(record, 0));
        random.fill(&mut record[12..16]);
        random.fill(&mut record[end..]);
    }
    assert!(written(packer, &records.concat()) == block);
}

/// Lines that say something else have another block: one byte of what is carried, another service, another line, one less.
fn other_blocks<P: Packer>(packer: &P, random: &mut Random, lines: &[u8], block: &[u8]) {
    let at = 64 * random.below(lines.len() / 64);
    let [id, field, number] = [0, 4, 8].map(|word_at| word(lines, at + word_at));
    let mut changed = lines.to_vec();
    changed[at + 16 + random.below(carried(id))] ^= 1 << random.below(8);
    let other = written(packer, &changed);
    assert_eq!(other.iter().zip(block).filter(|(left, right)| left != right).count(), 1);

    let mut changed = lines.to_vec();
    put(&mut changed, at, if id == 0x1000 { 0x4000 } else { 0x1000 });
    assert!(written(packer, &changed) != block);

    let free = |(field, number): &(u32, u32)| {
        lines.chunks(64).all(|record| (word(record, 4), word(record, 8)) != (*field, *number))
    };
    let places: Vec<(u32, u32)> = places().filter(free).collect();
    if !places.is_empty() {
        let (other_field, other_number) = random.pick(&places);
        assert_ne!((other_field, other_number), (field, number));
        let mut changed = lines.to_vec();
        put_head(&mut changed[at..], [id, other_field, other_number]);
        assert!(written(packer, &changed) != block);
    }
    let fewer = [&lines[..at], &lines[at + 64..]].concat();
    assert!(written(packer, &fewer).len() < block.len());
}

/// Any block that is read is what its lines are written to.
fn blocks_come_back<P: Packer>(packer: P) {
    let calls = (0..CALLS).map(|index| cases::call(random::mix(index)));
    let mut accepted = 0;
    for made in calls.filter(|made| made.way == Way::Read) {
        let (number, lines) = call(&packer, &made);
        if number == 0 {
            accepted += 1;
            assert!(written(&packer, &lines) == made.input, "{made}");
        }
    }
    assert!(accepted > CALLS / 10, "{accepted} blocks");
}

#[test]
fn the_model_keeps_the_cases() {
    by_hand(Model);
}

#[test]
fn the_model_reads_what_it_writes() {
    round_trips(Model);
    blocks_come_back(Model);
}

/// Without a fault nothing is found, and the calls have every flaw, every number of lines at its edge, every service and bit.
#[test]
fn the_model_equals_itself() {
    let seen = packing::run(SEED, CALLS, &Model, &Model).unwrap_or_else(|fault| panic!("{fault}"));
    assert!(seen.missing().is_empty(), "{:?}", seen.missing());
}

/// The first call that shows the fault.
fn find(fault: Fault) -> Option<(u64, String)> {
    let mut comparison = Comparison::default();
    (0..MOST_CALLS).find_map(|index| {
        let (seed, mut unused) = (random::mix(index), Seen::default());
        let call = cases::call(seed);
        let found = comparison.call(&call, seed, &Model, &Faulty(fault), &mut unused).err()?;
        Some((index, format!("{}: expected {}, got {}\n  {call}", found.what, found.expected, found.got)))
    })
}

#[test]
fn every_fault_is_found() {
    for fault in FAULTS {
        let Some((index, text)) = find(fault) else { panic!("{fault:?} was not found") };
        println!("{fault:?}: found in call {index}, {text}");
    }
}

#[cfg(feature = "library")]
mod library {
    use super::*;
    use tollgutter_tests::ffi::Packing;

    #[test]
    fn the_library_keeps_the_cases() {
        by_hand(Packing);
    }

    #[test]
    fn the_library_reads_what_it_writes() {
        round_trips(Packing);
        blocks_come_back(Packing);
    }

    #[test]
    fn the_library_equals_the_model() {
        let seen = packing::run(SEED, CALLS, &Model, &Packing).unwrap_or_else(|fault| panic!("{fault}"));
        assert!(seen.missing().is_empty(), "{:?}", seen.missing());
    }
}
