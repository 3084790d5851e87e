//! The order of the checks, where two refusals with different numbers meet.

use tollgutter_tests::ask::{ask, done};
use tollgutter_tests::draft::{ControlDraft, Draft};
use tollgutter_tests::model::bytes::word;
use tollgutter_tests::model::words::*;
use tollgutter_tests::model::Device;
use tollgutter_tests::recorder::*;
use tollgutter_tests::session::Frame;

const UNKNOWN: u32 = 0xC0CC_5606;

/// Controls with one set of flags each: id 1 disabled and grabbed, 2 read-only and grabbed, 3 grabbed; 4 to 6 buttons:
/// 4 disabled and grabbed, 5 grabbed, 6 free.
fn flagged() -> Draft {
    let mut draft = Draft::bench();
    let one = draft.controls[0];
    let control = |id, kind, flags| ControlDraft { id, kind, flags, ..one };
    draft.controls = vec![
        control(1, 1, 3),
        control(2, 1, 6),
        control(3, 1, 2),
        control(4, 4, 3),
        control(5, 4, 2),
        control(6, 4, 0),
    ];
    draft
}

fn closed<R: Recorder>(device: &mut R) {
    assert_eq!(device.open(&[], [0, 0]), 22);
    // Closed comes before word, length and everything else: an unknown word is not looked at.
    assert_eq!(device.request(G_FMT, &mut []), 22);
    assert_eq!(device.request(UNKNOWN, &mut [0; 204]), 22);
    for kind in [PICTURES, CAPTIONS, 2] {
        assert_eq!(device.arrival(kind, &mut [0; 9], &[], 0, 0), Arrived { answer: REFUSED, number: 22, buffer: 0 });
        assert_eq!(device.verdict(kind), BLANK);
        assert_eq!([device.map(kind, 0, 4096), device.unmap(kind, 0, 4096)], [22, 22]);
    }
    assert_eq!(device.plane(0, 0), Plane { number: 22, start: 0, length: 0 });
}

fn words_and_lengths<R: Recorder>(device: &mut R) {
    assert_eq!(device.open(&flagged().bytes(), [1 << 20, 1 << 19]), 0);
    // An unknown word before a wrong length, a wrong length before a wrong type.
    assert_eq!(device.request(UNKNOWN, &mut []), 25);
    for (word, _) in ALL {
        assert_eq!(device.request(word, &mut vec![9; size(word) + 1]), 14);
    }
}

fn controls<R: Recorder>(device: &mut R) {
    let mut set = |id: u32, value: i32| ask(device, S_CTRL, &[(0, id), (4, value as u32)]).0;
    // Disabled and read-only before grabbed, grabbed before the range.
    assert_eq!([set(1, 99), set(2, 99), set(3, 99), set(3, -2)], [22, 22, 16, 16]);
    assert_eq!([set(4, 99), set(5, 99), set(6, 99)], [22, 16, 0]);
    assert_eq!([set(7, 0), set(0x8000_0001, 0)], [22, 22]);
    let mut get = |id: u32| ask(device, G_CTRL, &[(0, id)]).0;
    assert_eq!([get(1), get(2), get(3), get(4), get(5), get(6)], [22, 0, 0, 22, 22, 22]);
    // A button leaves the argument.
    assert_eq!(ask(device, S_CTRL, &[(0, 6), (4, 99)]).1, [6, 0, 0, 0, 99, 0, 0, 0]);
}

/// Calls that know one type refuse the other, after the length and before all else.
fn types<R: Recorder>(device: &mut R) {
    for word in [ENUM_FMT, CROPCAP, G_CROP, S_CROP, G_SLICED_VBI_CAP] {
        let at = type_at(word).expect("the word has a type");
        let mut number = |kind| ask(device, word, &[(at, kind)]).0;
        let (pictures, captions) = if word == G_SLICED_VBI_CAP { (22, 0) } else { (0, 22) };
        assert_eq!([number(PICTURES), number(CAPTIONS), number(2), number(0)], [pictures, captions, 22, 22]);
    }
    for kind in [0, 2, 5, 7, 0x0100_0006, u32::MAX] {
        for word in [G_FMT, S_FMT, TRY_FMT, STREAMON, STREAMOFF] {
            assert_eq!(ask(device, word, &[(0, kind)]).0, 22);
        }
        for (word, memory_at) in [(REQBUFS, 8), (QUERYBUF, 48), (QBUF, 48), (DQBUF, 48)] {
            assert_eq!(ask(device, word, &[(4, kind), (memory_at, 1)]).0, 22);
        }
        assert_eq!(device.verdict(kind), BLANK);
    }
}

/// Buffers and runs of one stream; `fit` is what its S_FMT asks for so that there are frames to hold.
fn buffers<R: Recorder>(device: &mut R, kind: u32, fit: (usize, u32)) {
    let dequeue = |device: &mut R, kind, memory| ask(device, DQBUF, &[(4, kind), (48, memory)]).0;
    let count = |device: &mut R, count, kind, memory| ask(device, REQBUFS, &[(0, count), (4, kind), (8, memory)]).0;
    // No buffers: nothing to stream and nothing to wait for.
    assert_eq!([dequeue(device, kind, 1), ask(device, STREAMON, &[(0, kind)]).0], [22, 22]);
    assert_eq!(ask(device, STREAMOFF, &[(0, kind)]).0, 0);
    assert_eq!(ask(device, S_FMT, &[(0, kind), fit]).0, 0);
    assert_eq!(count(device, 1, kind, 1), 0);
    // Buffers and no run: nothing to wait for either.
    assert_eq!([dequeue(device, 2, 1), dequeue(device, kind, 2), dequeue(device, kind, 1)], [22, 22, 22]);
    // The type before the buffers that stand in the way.
    assert_eq!([ask(device, S_FMT, &[(0, 2)]).0, ask(device, S_FMT, &[(0, kind)]).0], [22, 16]);
    assert_eq!(ask(device, TRY_FMT, &[(0, kind)]).0, 0);
    done(device, STREAMON, &[(0, kind)]);
    // In a run: type and memory before waiting. A stop ends the waiting, and a second STREAMON begins it again.
    assert_eq!([dequeue(device, 2, 1), dequeue(device, kind, 2), dequeue(device, kind, 1)], [22, 22, 11]);
    done(device, STREAMOFF, &[(0, kind)]);
    assert_eq!(dequeue(device, kind, 1), 22);
    done(device, STREAMON, &[(0, kind)]);
    assert_eq!(dequeue(device, kind, 1), 11);
    assert_eq!([count(device, 1, 2, 1), count(device, 1, kind, 2), count(device, 1, kind, 1)], [22, 22, 16]);
    // The type and the memory before a map, which stands in the way of freeing the buffers, too; a map's place before its limit.
    let slot = word(&done(device, QUERYBUF, &[(4, kind)]), 56);
    (0..255).for_each(|_| assert_eq!(device.map(kind, 0, slot), 0));
    assert_eq!([count(device, 0, 2, 1), count(device, 0, kind, 2), count(device, 0, kind, 1)], [22, 22, 16]);
    assert_eq!([device.map(2, 0, slot), device.map(kind, 0, 1), device.map(kind, 0, slot)], [22, 22, 75]);
    (0..255).for_each(|_| assert_eq!(device.unmap(kind, 0, slot), 0));
    // Freeing the buffers ends the run, and the waiting with it.
    assert_eq!([count(device, 0, kind, 1), dequeue(device, kind, 1)], [0, 22]);
    assert_eq!(ask(device, S_FMT, &[(0, kind), fit]).0, 0);
}

/// Arrivals of one stream, whose memory has this length; `whole` is a frame that it takes.
fn arrivals<R: Recorder>(device: &mut R, kind: u32, length: usize, whole: &[u8]) {
    let mut memory = vec![0; length];
    // The type before the length of the memory, that before streaming, streaming before damage.
    assert_eq!(device.arrival(kind + 1, &mut memory[1..], &[1], 0, -1).number, 22);
    assert_eq!(device.arrival(kind, &mut memory[1..], &[1], 0, -1).number, 14);
    assert_eq!(device.arrival(kind, &mut memory, &[1], 0, -1), Arrived { answer: IGNORED, number: 0, buffer: 0 });
    done(device, REQBUFS, &[(0, 1), (4, kind), (8, 1)]);
    done(device, STREAMON, &[(0, kind)]);
    // A refused arrival is not counted; damage comes before the lack of a buffer.
    assert_eq!(device.arrival(kind + 1, &mut memory, whole, 0, 0).number, 22);
    assert_eq!(device.arrival(kind, &mut memory[1..], whole, 0, 0).number, 14);
    assert_eq!(device.arrival(kind, &mut memory, &[1], 0, 0).answer, DAMAGED);
    done(device, QBUF, &[(0, 0), (4, kind), (48, 1)]);
    let stored = device.arrival(kind, &mut memory, whole, 0, 0);
    assert_eq!(stored, Arrived { answer: STORED, number: 1, buffer: 0 });
}

fn order<R: Recorder>(mut device: R) {
    closed(&mut device);
    words_and_lengths(&mut device);
    controls(&mut device);
    types(&mut device);
    buffers(&mut device, PICTURES, (4, 160));
    buffers(&mut device, CAPTIONS, (4, 0x1000));
    let size = word(&done(&mut device, G_FMT, &[(0, PICTURES)]), 24) as usize;
    arrivals(&mut device, PICTURES, 1 << 20, &vec![1; size]);
    arrivals(&mut device, CAPTIONS, 1 << 19, &Frame::records(vec![[0x1000, 0, 21]], 1).bytes());
}

#[test]
fn the_model_checks_in_order() {
    order(Device::closed());
}

#[cfg(feature = "library")]
#[test]
fn the_library_checks_in_order() {
    order(tollgutter_tests::ffi::Device::zeroed());
}
