//! The caption stream, case by case, on the model and, if it is linked, on the library: the services that are offered, what
//! a wish gets of them, which frames are whole, where buffers lie, and that neither stream disturbs the other.

use tollgutter_tests::ask::{ask, done};
use tollgutter_tests::draft::Draft;
use tollgutter_tests::model::bytes::{half, put_half, signed, word};
use tollgutter_tests::model::format::YUYV;
use tollgutter_tests::model::words::*;
use tollgutter_tests::model::Device;
use tollgutter_tests::random::Random;
use tollgutter_tests::recorder::*;
use tollgutter_tests::session::Frame;

const TELETEXT_B: u16 = 0x0001;
const VPS: u16 = 0x0400;
const CAPTION_525: u16 = 0x1000;
const WSS_625: u16 = 0x4000;

/// The table of services: service, field, first line, last line.
const TABLE: [(u16, usize, usize, usize); 6] = [
    (TELETEXT_B, 0, 7, 22),
    (TELETEXT_B, 1, 7, 22),
    (VPS, 0, 16, 16),
    (CAPTION_525, 0, 21, 21),
    (CAPTION_525, 1, 21, 21),
    (WSS_625, 0, 23, 23),
];

type Lines = [[u16; 24]; 2];

/// What the table has of these services, on each line.
fn of_table(services: u16) -> Lines {
    let mut lines = [[0; 24]; 2];
    for (service, field, first, last) in TABLE {
        lines[field][first..=last].iter_mut().for_each(|set| *set |= service & services);
    }
    lines
}

fn lines_at(bytes: &[u8], at: usize) -> Lines {
    std::array::from_fn(|field| std::array::from_fn(|line| half(bytes, at + 2 * (24 * field + line))))
}

fn union(lines: &Lines) -> u16 {
    lines.iter().flatten().fold(0, |all, set| all | set)
}

fn count(lines: &Lines) -> u32 {
    lines.iter().flatten().filter(|set| **set != 0).count() as u32
}

/// The argument that asks for a set and for lines; all else in it is anything.
fn wish(set: u16, lines: &Lines) -> Vec<u8> {
    let mut argument = vec![0xA5; 204];
    argument[..4].copy_from_slice(&CAPTIONS.to_le_bytes());
    put_half(&mut argument, 4, set);
    for (place, set) in lines.iter().flatten().enumerate() {
        put_half(&mut argument, 6 + 2 * place, *set);
    }
    argument
}

/// A device on the bench sheet, with 8 slots for captions and 5 bytes over.
fn opened<R: Recorder>(make: &impl Fn() -> R) -> R {
    let mut device = make();
    assert_eq!(device.open(&Draft::bench().bytes(), [1 << 20, 8 * 4096 + 5]), 0);
    device
}

/// The lines that TRY_FMT gives. The whole answer is held to the lines in it, and S_FMT and G_FMT to that answer.
fn negotiated<R: Recorder>(device: &mut R, set: u16, lines: &Lines) -> Lines {
    let mut answer = wish(set, lines);
    assert_eq!(device.request(TRY_FMT, &mut answer), 0);
    let given = lines_at(&answer, 6);
    let mut told = wish(union(&given), &given);
    told[102..].fill(0);
    told[104..108].copy_from_slice(&(64 * count(&given)).to_le_bytes());
    assert_eq!(answer, told);

    let mut set_answer = wish(set, lines);
    assert_eq!(device.request(S_FMT, &mut set_answer), 0);
    assert_eq!(set_answer, answer);
    assert_eq!(done(device, G_FMT, &[(0, CAPTIONS)]), answer);
    given
}

/// Everything that holds of the caption stream.
fn captions<R: Recorder>(make: impl Fn() -> R) {
    offered(opened(&make));
    by_set(opened(&make));
    by_lines(opened(&make));
    offered_again(opened(&make));
    nothing_at_opening(opened(&make));
    busy(opened(&make));
    slots(opened(&make));
    whole_frames(&make);
    taken_away(opened(&make));
    bytes_used(opened(&make));
    lent_memories(opened(&make));
    both_at_once(opened(&make));
}

fn offered<R: Recorder>(mut device: R) {
    let mut argument = vec![0xA5; 116];
    argument[100..104].copy_from_slice(&CAPTIONS.to_le_bytes());
    assert_eq!(device.request(G_SLICED_VBI_CAP, &mut argument), 0);
    let lines = lines_at(&argument, 2);
    assert_eq!(lines, of_table(0x5401));
    assert_eq!((half(&argument, 0), union(&lines), count(&lines)), (0x5401, 0x5401, 33));
    assert_eq!((lines[0][16], lines[1][16]), (TELETEXT_B | VPS, TELETEXT_B));
    assert_eq!((lines[0][21], lines[1][21]), (TELETEXT_B | CAPTION_525, TELETEXT_B | CAPTION_525));
    assert_eq!((lines[0][23], lines[1][23], lines[0][0], lines[1][0]), (WSS_625, 0, 0, 0));
    assert_eq!((half(&argument, 98), word(&argument, 100)), (0, CAPTIONS));
    assert!(argument[104..].iter().all(|byte| *byte == 0));
    // It does not depend on what was negotiated, and says so in the capabilities.
    negotiated(&mut device, CAPTION_525, &[[0; 24]; 2]);
    assert_eq!(done(&mut device, G_SLICED_VBI_CAP, &[(100, CAPTIONS)]), argument);
    assert_eq!(word(&done(&mut device, QUERYCAP, &[]), 84), 0x0400_0041);
}

/// A set that is not empty: its services wherever they are offered, whatever the asked lines are.
fn by_set<R: Recorder>(mut device: R) {
    let mut random = Random::new(1);
    let sets = [CAPTION_525, TELETEXT_B, VPS, WSS_625, 0x5401, u16::MAX, 0x0002, 0x8000, 0xABFE, 0x1002];
    for set in sets.into_iter().chain((0..200).map(|place| place * 327 + 1)) {
        let asked = std::array::from_fn(|_| std::array::from_fn(|_| random.word() as u16));
        assert_eq!(negotiated(&mut device, set, &asked), of_table(set), "{set:#x}");
    }
    for (set, size) in [(CAPTION_525, 2), (TELETEXT_B, 32), (VPS, 1), (WSS_625, 1), (0x5401, 33), (0x5001, 33)] {
        negotiated(&mut device, set, &[[0; 24]; 2]);
        assert_eq!(word(&done(&mut device, G_FMT, &[(0, CAPTIONS)]), 104), 64 * size);
    }
    // Nothing fits: no services, and no bytes.
    let none = negotiated(&mut device, 0x0002, &[[u16::MAX; 24]; 2]);
    assert_eq!((union(&none), word(&done(&mut device, G_FMT, &[(0, CAPTIONS)]), 104)), (0, 0));
}

/// An empty set: each line is cut down to what is offered there.
fn by_lines<R: Recorder>(mut device: R) {
    let all = of_table(0x5401);
    let mut random = Random::new(2);
    for _ in 0..300 {
        let asked: Lines =
            std::array::from_fn(|_| std::array::from_fn(|_| random.word() as u16 & random.word() as u16));
        let expected: Lines =
            std::array::from_fn(|field| std::array::from_fn(|line| asked[field][line] & all[field][line]));
        assert_eq!(negotiated(&mut device, 0, &asked), expected);
    }
    assert_eq!(negotiated(&mut device, 0, &[[u16::MAX; 24]; 2]), all);
    assert_eq!(negotiated(&mut device, 0, &[[0; 24]; 2]), [[0; 24]; 2]);
    // Each service on each line, alone.
    for (place, service) in (0..48).flat_map(|place| [TELETEXT_B, VPS, CAPTION_525, WSS_625, 2].map(|one| (place, one)))
    {
        let mut asked = [[0; 24]; 2];
        asked[place / 24][place % 24] = service;
        let given = negotiated(&mut device, 0, &asked);
        assert_eq!(count(&given), u32::from(all[place / 24][place % 24] & service != 0));
        assert_eq!(union(&given), all[place / 24][place % 24] & service);
    }
}

/// What is answered to a set, offered again, answers itself. The lines of any answer, offered again with an empty set, do
/// too. But a line that was asked for alone, offered again with its union, gives all lines of the service.
fn offered_again<R: Recorder>(mut device: R) {
    let mut random = Random::new(3);
    for _ in 0..200 {
        let set = random.word() as u16;
        let asked: Lines =
            std::array::from_fn(|_| std::array::from_fn(|_| random.word() as u16 & random.word() as u16));
        let by_set = negotiated(&mut device, set | 1, &asked);
        assert_eq!(negotiated(&mut device, union(&by_set), &by_set), by_set);
        for set in [set, 0] {
            let given = negotiated(&mut device, set, &asked);
            assert_eq!(negotiated(&mut device, 0, &given), given);
        }
    }
    let mut alone = [[0; 24]; 2];
    alone[0][21] = CAPTION_525;
    assert_eq!(negotiated(&mut device, 0, &alone), alone);
    let both = negotiated(&mut device, CAPTION_525, &alone);
    assert_eq!(both, of_table(CAPTION_525));
    assert_eq!(count(&both), 2);
}

/// No services at opening, so no buffers, no run, and nothing that could arrive.
fn nothing_at_opening<R: Recorder>(mut device: R) {
    let format = done(&mut device, G_FMT, &[(0, CAPTIONS)]);
    assert_eq!((word(&format, 0), format[4..].iter().all(|byte| *byte == 0)), (CAPTIONS, true));
    assert_eq!(buffers(&mut device, 32), 0);
    assert_eq!(ask(&mut device, STREAMON, &[(0, CAPTIONS)]).0, 22);
    assert_eq!(ask(&mut device, QUERYBUF, &[(4, CAPTIONS)]).0, 22);
    let ignored = device.arrival(CAPTIONS, &mut [0; 8 * 4096 + 5], &[], 0, 0);
    assert_eq!(ignored, Arrived { answer: IGNORED, number: 0, buffer: 0 });
    assert_eq!(device.verdict(CAPTIONS), BLANK);
}

fn buffers<R: Recorder>(device: &mut R, count: u32) -> u32 {
    word(&done(device, REQBUFS, &[(0, count), (4, CAPTIONS), (8, 1)]), 0)
}

/// S_FMT of a stream is held up by that stream's buffers and by no others; TRY_FMT by none.
fn busy<R: Recorder>(mut device: R) {
    let set = |device: &mut R, kind| ask(device, S_FMT, &[(0, kind), (4, 0x1000)]).0;
    done(&mut device, REQBUFS, &[(0, 1), (4, PICTURES), (8, 1)]);
    assert_eq!([set(&mut device, PICTURES), set(&mut device, CAPTIONS)], [16, 0]);
    assert_eq!(buffers(&mut device, 1), 1);
    assert_eq!([set(&mut device, PICTURES), set(&mut device, CAPTIONS)], [16, 16]);
    let before = done(&mut device, G_FMT, &[(0, CAPTIONS)]);
    done(&mut device, TRY_FMT, &[(0, CAPTIONS), (4, 0x5401)]);
    assert_eq!(done(&mut device, G_FMT, &[(0, CAPTIONS)]), before);
    done(&mut device, REQBUFS, &[(4, PICTURES), (8, 1)]);
    assert_eq!([set(&mut device, PICTURES), set(&mut device, CAPTIONS)], [0, 16]);
    assert_eq!(buffers(&mut device, 0), 0);
    assert_eq!(set(&mut device, CAPTIONS), 0);
}

/// The io size takes the image size's place: one slot is 4,096 bytes whatever was negotiated, none without services.
fn slots<R: Recorder>(mut device: R) {
    for set in [CAPTION_525, 0x5401, VPS] {
        negotiated(&mut device, set, &[[0; 24]; 2]);
        assert_eq!([3, 40].map(|count| buffers(&mut device, count)), [3, 8]);
        for index in 0..8 {
            let status = done(&mut device, QUERYBUF, &[(0, index), (4, CAPTIONS)]);
            let fields = [0, 4, 8, 12, 16, 48, 52, 56].map(|at| word(&status, at));
            assert_eq!(fields, [index, CAPTIONS, 0, 0, 1, 1, index * 4096, 4096]);
        }
        assert_eq!(ask(&mut device, QUERYBUF, &[(0, 8), (4, CAPTIONS)]).0, 22);
        assert_eq!(buffers(&mut device, 0), 0);
    }
    negotiated(&mut device, 0x0002, &[[0; 24]; 2]);
    assert_eq!(buffers(&mut device, 1), 0);
}

/// A device in a run of captions with these services, and no buffer waiting.
fn running<R: Recorder>(make: &impl Fn() -> R, set: u16) -> R {
    let mut device = opened(make);
    negotiated(&mut device, set, &[[0; 24]; 2]);
    assert_eq!(buffers(&mut device, 2), 2);
    done(&mut device, STREAMON, &[(0, CAPTIONS)]);
    device
}

/// Heads of records, and whether a frame of them is whole.
type Case = (&'static str, bool, &'static [[u32; 3]]);

/// With all services negotiated.
const ALL_SERVICES: &[Case] = &[
    ("no record", true, &[]),
    ("the load line", true, &[[0x1000, 0, 21]]),
    ("the load line of the second field", true, &[[0x1000, 1, 21]]),
    ("both fields", true, &[[0x1000, 0, 21], [0x1000, 1, 21]]),
    ("both fields, the second first", true, &[[0x1000, 1, 21], [0x1000, 0, 21]]),
    ("lines that fall", true, &[[0x4000, 0, 23], [1, 1, 22], [1, 0, 7]]),
    ("each service", true, &[[1, 0, 7], [0x400, 0, 16], [0x1000, 0, 21], [0x4000, 0, 23]]),
    ("a shared line, the other service", true, &[[1, 0, 21], [1, 0, 16]]),
    ("first and last line of text", true, &[[1, 0, 7], [1, 0, 22], [1, 1, 7], [1, 1, 22]]),
    ("a line twice", false, &[[0x1000, 0, 21], [0x1000, 0, 21]]),
    ("a line twice, by two services", false, &[[1, 0, 21], [0x1000, 0, 21]]),
    ("a line twice, far apart", false, &[[1, 0, 7], [0x1000, 1, 21], [1, 0, 8], [1, 0, 9], [1, 0, 7]]),
    ("an empty record", false, &[[0, 0, 0]]),
    ("an empty record on the line", false, &[[0, 0, 21]]),
    ("an empty record behind a good one", false, &[[0x1000, 0, 21], [0, 0, 22]]),
    ("two services in one", false, &[[0x1001, 0, 21]]),
    ("all services in one", false, &[[0x5401, 0, 21]]),
    ("an unknown service", false, &[[2, 0, 21]]),
    ("a service and an unknown bit", false, &[[0x1002, 0, 21]]),
    ("a service and a bit above 16", false, &[[0x1_1000, 0, 21]]),
    ("a service moved up by 16 bits", false, &[[0x1000_0000, 0, 21]]),
    ("field 2", false, &[[0x1000, 2, 21]]),
    ("a field above 32 lines", false, &[[0x1000, u32::MAX, 21]]),
    ("a field with a high bit", false, &[[0x1000, 0x8000_0000, 21]]),
    ("line 24 of the first field, which is line 0 of the second", false, &[[1, 0, 24]]),
    ("line 45 of the first field, which is line 21 of the second", false, &[[0x1000, 0, 45]]),
    ("line 0", false, &[[0x1000, 0, 0]]),
    ("line 6", false, &[[1, 0, 6]]),
    ("line 23 of the second field", false, &[[0x4000, 1, 23]]),
    ("a line with a high bit", false, &[[0x1000, 0, 0x8000_0015]]),
    ("the last line of all", false, &[[0x1000, 0, u32::MAX]]),
    ("a service on another's line", false, &[[0x1000, 0, 20]]),
    ("text on line 23", false, &[[1, 0, 23]]),
    ("VPS of the second field", false, &[[0x400, 1, 16]]),
    ("one bad among good", false, &[[1, 0, 7], [1, 0, 8], [1, 0, 23], [1, 0, 9]]),
];

/// With the load line alone negotiated.
const LOAD_LINE: &[Case] = &[
    ("the load line", true, &[[0x1000, 0, 21]]),
    ("both fields", true, &[[0x1000, 1, 21], [0x1000, 0, 21]]),
    ("a service that shares the line", false, &[[1, 0, 21]]),
    ("a line that is offered", false, &[[1, 0, 7]]),
    ("a line that is offered, beside the load line", false, &[[0x1000, 0, 21], [0x4000, 0, 23]]),
];

fn whole_frames<R: Recorder>(make: &impl Fn() -> R) {
    for (set, cases) in [(0x5401, ALL_SERVICES), (CAPTION_525, LOAD_LINE)] {
        let mut device = running(make, set);
        let mut memory = vec![0; 8 * 4096 + 5];
        let mut arrive =
            |frame: &[u8], microseconds| device.arrival(CAPTIONS, &mut memory, frame, 1, microseconds).answer;
        for (name, whole, heads) in cases {
            // What reserved words and payload hold does not matter.
            for seed in [0, 1, 2] {
                let frame = Frame::records(heads.to_vec(), seed).bytes();
                assert_eq!(arrive(&frame, 0), if *whole { DROPPED } else { DAMAGED }, "{name}");
                assert_eq!(arrive(&frame, 1_000_000), DAMAGED, "{name}");
            }
        }
        let good = Frame::records(vec![[0x1000, 0, 21], [0x1000, 1, 21]], 5).bytes();
        let times = [-1, 0, 999_999, 1_000_000, i32::MIN, i32::MAX].map(|time| arrive(&good, time));
        assert_eq!(times, [DAMAGED, DROPPED, DROPPED, DAMAGED, DAMAGED, DAMAGED]);
        for length in 0..good.len() {
            assert_eq!(arrive(&good[..length], 0), if length % 64 == 0 { DROPPED } else { DAMAGED }, "{length} bytes");
        }
    }
    all_lines(running(make, 0x5401));
}

/// A record of every line is whole, in any order; one more record is not.
fn all_lines<R: Recorder>(mut device: R) {
    let mut memory = vec![0; 8 * 4096 + 5];
    let mut heads: Vec<[u32; 3]> = Vec::new();
    for (service, field, first, last) in TABLE {
        for line in first..=last {
            heads.retain(|[_, f, l]| (*f, *l) != (field as u32, line as u32));
            heads.push([service.into(), field as u32, line as u32]);
        }
    }
    assert_eq!(heads.len(), 33);
    let mut random = Random::new(4);
    for _ in 0..50 {
        let (left, right) = (random.below(33), random.below(33));
        heads.swap(left, right);
        let frame = Frame::records(heads.clone(), random.draw()).bytes();
        assert_eq!(device.arrival(CAPTIONS, &mut memory, &frame, 0, 0).answer, DROPPED);
        let mut again = heads.clone();
        again.push(heads[left]);
        let frame = Frame::records(again, random.draw()).bytes();
        assert_eq!(device.arrival(CAPTIONS, &mut memory, &frame, 0, 0).answer, DAMAGED);
    }
}

/// What counts is the last accepted S_FMT: services that it took away are damage, a refused one changes nothing.
fn taken_away<R: Recorder>(mut device: R) {
    let mut memory = vec![0; 8 * 4096 + 5];
    let frames = [[1, 0, 7], [0x1000, 0, 21]].map(|head| Frame::records(vec![head], 1).bytes());
    for (set, answers) in [
        (TELETEXT_B, [DROPPED, DAMAGED]),
        (CAPTION_525, [DAMAGED, DROPPED]),
        (TELETEXT_B | CAPTION_525, [DROPPED, DROPPED]),
        (VPS, [DAMAGED, DAMAGED]),
    ] {
        negotiated(&mut device, set, &[[0; 24]; 2]);
        assert_eq!(buffers(&mut device, 1), 1);
        done(&mut device, STREAMON, &[(0, CAPTIONS)]);
        assert_eq!(ask(&mut device, S_FMT, &[(0, CAPTIONS), (4, 0x5401)]).0, 16);
        done(&mut device, TRY_FMT, &[(0, CAPTIONS), (4, 0x5401)]);
        let arrived = frames.each_ref().map(|frame| device.arrival(CAPTIONS, &mut memory, frame, 0, 0).answer);
        assert_eq!(arrived, answers, "{set:#x}");
        assert_eq!(buffers(&mut device, 0), 0);
    }
}

/// Bytes used is the frame's own length, and only that many bytes are written; a frame of no record writes none.
fn bytes_used<R: Recorder>(mut device: R) {
    let mut memory = vec![0xEE; 8 * 4096 + 5];
    negotiated(&mut device, 0x5401, &[[0; 24]; 2]);
    assert_eq!(buffers(&mut device, 8), 8);
    for index in [5, 2, 7] {
        done(&mut device, QBUF, &[(0, index), (4, CAPTIONS), (48, 1)]);
    }
    done(&mut device, STREAMON, &[(0, CAPTIONS)]);
    let frames = [vec![[0x1000, 0, 21], [1, 1, 9]], vec![], vec![[0x4000, 0, 23]]];
    for (number, (index, heads)) in [5, 2, 7].into_iter().zip(frames).enumerate() {
        let frame = Frame::records(heads, 9).bytes();
        let before = memory.clone();
        let arrived = device.arrival(CAPTIONS, &mut memory, &frame, -7, 999_999);
        assert_eq!(arrived, Arrived { answer: STORED, number: number as u32, buffer: index });
        let (from, to) = (index as usize * 4096, index as usize * 4096 + frame.len());
        assert!(memory[from..to] == frame && memory[..from] == before[..from] && memory[to..] == before[to..]);
        let status = done(&mut device, QUERYBUF, &[(0, index), (4, CAPTIONS)]);
        assert_eq!((word(&status, 8), word(&status, 12)), (frame.len() as u32, 4));
        let answer = done(&mut device, DQBUF, &[(4, CAPTIONS), (48, 1)]);
        assert_eq!((word(&answer, 0), word(&answer, 4), word(&answer, 8)), (index, CAPTIONS, frame.len() as u32));
        assert_eq!((signed(&answer, 20), signed(&answer, 24), word(&answer, 44)), (-7, 999_999, number as u32));
        assert_eq!((word(&answer, 16), word(&answer, 52), word(&answer, 56)), (1, index * 4096, 4096));
    }
    done(&mut device, STREAMOFF, &[(0, CAPTIONS)]);
    assert_eq!(device.verdict(CAPTIONS), COMPLETE);
}

/// Each stream asks for a memory of its own length.
fn lent_memories<R: Recorder>(mut device: R) {
    let (mut pictures, mut captions) = (vec![0; 1 << 20], vec![0; 8 * 4096 + 5]);
    let refused = Arrived { answer: REFUSED, number: 14, buffer: 0 };
    assert_eq!(device.arrival(PICTURES, &mut captions, &[], 0, 0), refused);
    assert_eq!(device.arrival(CAPTIONS, &mut pictures, &[], 0, 0), refused);
    assert_eq!(device.arrival(PICTURES, &mut pictures, &[], 0, 0).answer, IGNORED);
    assert_eq!(device.arrival(CAPTIONS, &mut captions, &[], 0, 0).answer, IGNORED);
    for kind in [0, 2, 5, 7, u32::MAX] {
        let unknown = Arrived { answer: REFUSED, number: 22, buffer: 0 };
        assert_eq!(device.arrival(kind, &mut pictures, &[], 0, 0), unknown);
        assert_eq!(device.arrival(kind, &mut [], &[], 0, 0), unknown);
        assert_eq!(device.verdict(kind), BLANK);
    }
    // Each memory has its own limit at opening.
    let sheet = Draft::bench().bytes();
    for (lengths, number) in [([1 << 30, 1 << 30], 0), ([(1 << 30) + 1, 0], 22), ([0, (1 << 30) + 1], 22)] {
        assert_eq!(device.open(&sheet, lengths), number);
        assert_eq!(ask(&mut device, QUERYCAP, &[]).0, number);
    }
}

/// What there is to see of a stream: its verdict, its format and its buffers.
fn seen<R: Recorder>(device: &mut R, kind: u32) -> Vec<(u32, Vec<u8>)> {
    let buffers = (0..8).map(|index| (QUERYBUF, vec![(0, index), (4, kind)]));
    let mut seen = vec![(device.verdict(kind), vec![])];
    seen.extend(buffers.chain([(G_FMT, vec![(0, kind)])]).map(|(word, fields)| ask(device, word, &fields)));
    seen
}

/// Both streams run: each call changes its own stream, and of the other nothing can be seen to move.
fn both_at_once<R: Recorder>(mut device: R) {
    let mut memories = [vec![0; 1 << 20], vec![0; 8 * 4096 + 5]];
    done(&mut device, S_FMT, &[(0, PICTURES), (4, 160), (8, 120), (12, YUYV)]);
    let size = word(&done(&mut device, G_FMT, &[(0, PICTURES)]), 24) as usize;
    let frames = [vec![3; size], Frame::records(vec![[0x1000, 0, 21]], 1).bytes()];
    let calls = |kind: u32| -> Vec<(u32, Vec<(usize, u32)>)> {
        let width_or_set = if kind == PICTURES { 160 } else { 0x1000 };
        vec![
            (S_FMT, vec![(0, kind), (4, width_or_set), (8, 120), (12, YUYV)]),
            (REQBUFS, vec![(0, 3), (4, kind), (8, 1)]),
            (QBUF, vec![(0, 2), (4, kind), (48, 1)]),
            (QBUF, vec![(0, 0), (4, kind), (48, 1)]),
            (STREAMON, vec![(0, kind)]),
            (DQBUF, vec![(4, kind), (48, 1)]),
            (QBUF, vec![(0, 2), (4, kind), (48, 1)]),
            (STREAMOFF, vec![(0, kind)]),
            (REQBUFS, vec![(4, kind), (8, 1)]),
        ]
    };
    // The two streams take turns in two orders; an arrival comes before each dequeue.
    for place in [0, 1] {
        for step in 0..calls(PICTURES).len() {
            for turn in [place, 1 - place] {
                let (kind, other) = (STREAMS[turn], STREAMS[1 - turn]);
                let (before, held) = (seen(&mut device, other), memories[1 - turn].clone());
                let (word, fields) = calls(kind)[step].clone();
                if word == DQBUF {
                    let arrived = device.arrival(kind, &mut memories[turn], &frames[turn], 4, 5);
                    assert_eq!(arrived, Arrived { answer: STORED, number: 0, buffer: 2 });
                }
                done(&mut device, word, &fields);
                assert_eq!(seen(&mut device, other), before, "{word:#x} of type {kind}");
                assert!(memories[1 - turn] == held);
            }
        }
        assert_eq!(STREAMS.map(|kind| device.verdict(kind)), [COMPLETE, COMPLETE]);
    }
    gaps_in_one(device, memories, frames);
}

/// A gap in the captions is no gap in the film, nor the other way round.
fn gaps_in_one<R: Recorder>(mut device: R, mut memories: [Vec<u8>; 2], frames: [Vec<u8>; 2]) {
    for gap in [0, 1] {
        for (turn, kind) in STREAMS.into_iter().enumerate() {
            done(&mut device, REQBUFS, &[(0, 1), (4, kind), (8, 1)]);
            done(&mut device, QBUF, &[(4, kind), (48, 1)]);
            done(&mut device, STREAMON, &[(0, kind)]);
            assert_eq!(device.arrival(kind, &mut memories[turn], &frames[turn], 0, 0).answer, STORED);
            done(&mut device, DQBUF, &[(4, kind), (48, 1)]);
        }
        assert_eq!(device.arrival(STREAMS[gap], &mut memories[gap], &frames[gap][1..], 0, 0).answer, DAMAGED);
        for kind in STREAMS {
            done(&mut device, STREAMOFF, &[(0, kind)]);
        }
        assert_eq!((device.verdict(STREAMS[gap]), device.verdict(STREAMS[1 - gap])), (GAPS, COMPLETE));
    }
}

#[test]
fn the_model_keeps_captions() {
    captions(Device::closed);
}

#[cfg(feature = "library")]
#[test]
fn the_library_keeps_captions() {
    captions(tollgutter_tests::ffi::Device::zeroed);
}
