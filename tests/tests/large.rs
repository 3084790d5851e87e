//! The largest picture memory: 32 buffers that fill 2^30 bytes, and a frame in the first and in the last of them.

use tollgutter_tests::ask::done;
use tollgutter_tests::draft::Draft;
use tollgutter_tests::model::bytes::word;
use tollgutter_tests::model::format::GREY;
use tollgutter_tests::model::words::*;
use tollgutter_tests::model::Device;
use tollgutter_tests::recorder::*;

const MEMORY: usize = 1 << 30;
const SLOT: usize = MEMORY / 32;

fn last_slot_is_used<R: Recorder>(mut device: R) {
    let draft = Draft { formats: vec![(GREY, [0; 32])], width: [2, 8192, 2], height: [2, 4096, 2], ..Draft::bench() };
    assert_eq!(device.open(&draft.bytes(), [MEMORY as u64; 2]), 0);
    let mut memory = vec![0; MEMORY];
    let frame: Vec<u8> = (0..SLOT).map(|place| (place % 251) as u8 + 1).collect();
    let buffers = done(&mut device, REQBUFS, &[(0, u32::MAX), (4, 1), (8, 1)]);
    assert_eq!(word(&buffers, 0), 32);
    done(&mut device, STREAMON, &[(0, 1)]);
    for (number, index) in [31, 0].into_iter().enumerate() {
        done(&mut device, QBUF, &[(0, index), (4, 1), (48, 1)]);
        let arrived = device.arrival(PICTURES, &mut memory, &frame, 1, 2);
        assert_eq!(arrived, Arrived { answer: STORED, number: number as u32, buffer: index });
        let answer = done(&mut device, DQBUF, &[(4, 1), (48, 1)]);
        assert_eq!((word(&answer, 52) as usize, word(&answer, 56) as usize), (index as usize * SLOT, SLOT));
    }
    assert!(memory[..SLOT] == frame && memory[31 * SLOT..] == frame);
    assert!(memory[SLOT..31 * SLOT].iter().all(|byte| *byte == 0));
}

#[test]
fn the_model_uses_all_of_the_memory() {
    last_slot_is_used(Device::closed());
}

#[cfg(feature = "library")]
#[test]
fn the_library_uses_all_of_the_memory() {
    last_slot_is_used(tollgutter_tests::ffi::Device::zeroed());
}
