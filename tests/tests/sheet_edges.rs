//! Every rule of a good sheet at its edge: the last value that is taken, and the first that is not.

use tollgutter_tests::draft::{ControlDraft, Draft};
use tollgutter_tests::model::format::{CODES, YUYV};
use tollgutter_tests::model::Device;
use tollgutter_tests::recorder::Recorder;

/// A change of the bench sheet, and whether the sheet is still good.
type Case = (&'static str, bool, fn(&mut Draft));

/// The bench control as an integer control with these numbers.
fn numbers(draft: &mut Draft, kind: u32, numbers: [i32; 4]) {
    let [minimum, maximum, step, initial] = numbers;
    draft.controls[0] = ControlDraft { kind, minimum, maximum, step, initial, ..draft.controls[0] };
}

fn controls(draft: &mut Draft, ids: impl Iterator<Item = u32>) {
    let one = draft.controls[0];
    draft.controls = ids.map(|id| ControlDraft { id, ..one }).collect();
}

const TEXTS: &[Case] = &[
    ("driver without an end", false, |d| d.driver = [1; 16]),
    ("driver that ends at its last byte", true, |d| d.driver = std::array::from_fn(|i| u8::from(i < 15))),
    ("card without an end", false, |d| d.card = [255; 32]),
    ("card with its zero in front", true, |d| d.card = std::array::from_fn(|i| u8::from(i > 0))),
    ("bus without an end", false, |d| d.bus = [1; 32]),
    ("any version", true, |d| d.version = u32::MAX),
    ("description without an end", false, |d| d.formats[1].1 = [1; 32]),
    ("name without an end", false, |d| d.controls[0].name = [1; 32]),
];

const FORMATS: &[Case] = &[
    ("no format", false, |d| d.formats.clear()),
    ("one format", true, |d| d.formats.truncate(1)),
    ("nine formats", true, |d| d.formats = CODES.map(|code| (code, [0; 32])).to_vec()),
    ("ten formats", false, |d| {
        d.formats = CODES.map(|code| (code, [0; 32])).to_vec();
        d.formats.push((YUYV, [0; 32]));
    }),
    ("a code twice", false, |d| d.formats[1].0 = d.formats[0].0),
    ("an unknown code", false, |d| d.formats[1].0 = u32::from_le_bytes(*b"YUY2")),
    ("letters the wrong way round", false, |d| d.formats[0].0 = YUYV.swap_bytes()),
];

const SIZES: &[Case] = &[
    ("least 2", true, |d| d.width = [2, 640, 2]),
    ("least 0", false, |d| d.width = [0, 640, 2]),
    ("least odd", false, |d| d.height = [121, 481, 2]),
    ("greatest 8192", true, |d| d.height = [2, 8192, 2]),
    ("greatest 8194", false, |d| d.height = [2, 8194, 2]),
    ("one size", true, |d| d.width = [640, 640, 2]),
    ("least above greatest", false, |d| d.width = [642, 640, 2]),
    ("step 0", false, |d| d.width = [160, 160, 0]),
    ("step 1", false, |d| d.width = [160, 640, 1]),
    ("step odd", false, |d| d.width = [160, 166, 3]),
    ("step that does not lead to the greatest", false, |d| d.width = [160, 642, 16]),
    ("a long step and one size", true, |d| d.width = [160, 160, 0xffff_fffe]),
    ("alignment 2", true, |d| d.alignment = 2),
    ("alignment 64", true, |d| d.alignment = 64),
    ("alignment 1", false, |d| d.alignment = 1),
    ("alignment 0", false, |d| d.alignment = 0),
    ("alignment 6", false, |d| d.alignment = 6),
    ("alignment 128", false, |d| d.alignment = 128),
];

const RECTANGLES: &[Case] = &[
    ("bounds at the far left", true, |d| (d.bounds, d.default) = ([-32_768, 0, 9, 9], [-32_768, 0, 9, 9])),
    ("bounds too far left", false, |d| (d.bounds, d.default) = ([-32_769, 0, 9, 9], [-32_769, 0, 9, 9])),
    ("bounds at the far bottom", true, |d| (d.bounds, d.default) = ([0, 32_767, 9, 9], [0, 32_767, 9, 9])),
    ("bounds too far down", false, |d| (d.bounds, d.default) = ([0, 32_768, 9, 9], [0, 32_768, 9, 9])),
    ("bounds of 8192", true, |d| d.bounds = [-8, 0, 8192, 8192]),
    ("bounds of 8193", false, |d| d.bounds = [-8, 0, 8193, 8192]),
    ("bounds of 1", true, |d| (d.bounds, d.default) = ([5, 5, 1, 1], [5, 5, 1, 1])),
    ("bounds of 0", false, |d| (d.bounds, d.default) = ([5, 5, 1, 0], [5, 5, 1, 1])),
    ("negative bounds", false, |d| d.bounds[2] = -1),
    ("default one point", true, |d| d.default = [631, 399, 1, 1]),
    ("default right of the bounds", false, |d| d.default = [632, 399, 1, 1]),
    ("default below the bounds", false, |d| d.default = [631, 400, 1, 1]),
    ("default left of the bounds", false, |d| d.default = [-9, 0, 1, 1]),
    ("default above the bounds", false, |d| d.default = [-8, -1, 1, 1]),
    ("default of no width", false, |d| d.default = [0, 0, 0, 1]),
    ("default of negative height", false, |d| d.default = [0, 0, 1, -1]),
    ("default that ends beyond the numbers", false, |d| d.default = [100, 0, i32::MAX, 1]),
    ("aspect 0 to 1", false, |d| d.aspect = [0, 1]),
    ("aspect 1 to 0", false, |d| d.aspect = [1, 0]),
    ("any aspect", true, |d| d.aspect = [u32::MAX, u32::MAX]),
];

const CONTROLS: &[Case] = &[
    ("no control", true, |d| d.controls.clear()),
    ("32 controls", true, |d| controls(d, 0..32)),
    ("33 controls", false, |d| controls(d, 0..33)),
    ("the highest id", true, |d| controls(d, [0, 0x7fff_ffff].into_iter())),
    ("an id with bit 31", false, |d| controls(d, [0, 0x8000_0000].into_iter())),
    ("an id twice", false, |d| controls(d, [7, 7].into_iter())),
    ("ids that fall", false, |d| controls(d, [7, 6].into_iter())),
    ("all flags", true, |d| d.controls[0].flags = 7),
    ("a flag too many", false, |d| d.controls[0].flags = 8),
    ("first reserved word", false, |d| d.controls[0].reserved = [1, 0]),
    ("second reserved word", false, |d| d.controls[0].reserved = [0, 0x8000_0000]),
    ("type 0", false, |d| d.controls[0].kind = 0),
    ("type 5", false, |d| d.controls[0].kind = 5),
];

const RANGES: &[Case] = &[
    ("one value", true, |d| numbers(d, 1, [5, 5, 9, 5])),
    ("minimum above maximum", false, |d| numbers(d, 1, [6, 5, 1, 5])),
    ("step 0", false, |d| numbers(d, 1, [5, 5, 0, 5])),
    ("step -1", false, |d| numbers(d, 1, [5, 7, -1, 5])),
    ("step that does not divide", false, |d| numbers(d, 1, [0, 10, 3, 0])),
    ("the whole range by 3", true, |d| numbers(d, 1, [i32::MIN, i32::MAX, 3, i32::MAX])),
    ("the whole range by 2", false, |d| numbers(d, 1, [i32::MIN, i32::MAX, 2, i32::MIN])),
    ("default off the grid", false, |d| numbers(d, 1, [-10, 10, 4, 0])),
    ("default below", false, |d| numbers(d, 1, [-10, 10, 4, -14])),
    ("default above", false, |d| numbers(d, 1, [-10, 10, 4, 14])),
    ("boolean", true, |d| numbers(d, 2, [0, 1, 1, 1])),
    ("boolean to 2", false, |d| numbers(d, 2, [0, 2, 1, 1])),
    ("boolean from 1", false, |d| numbers(d, 2, [1, 1, 1, 1])),
    ("boolean of one value", false, |d| numbers(d, 2, [0, 0, 1, 0])),
    ("boolean with default 2", false, |d| numbers(d, 2, [0, 1, 1, 2])),
    ("menu of one item", true, |d| numbers(d, 3, [0, 0, 1, 0])),
    ("menu of all items", true, |d| numbers(d, 3, [0, i32::MAX, 1, 7])),
    ("menu from 1", false, |d| numbers(d, 3, [1, 4, 1, 1])),
    ("menu step 2", false, |d| numbers(d, 3, [0, 4, 2, 0])),
    ("menu that ends before it starts", false, |d| numbers(d, 3, [0, -1, 1, 0])),
    ("button with odd numbers", true, |d| numbers(d, 4, [9, -9, 0, i32::MIN])),
];

fn edges<R: Recorder>(mut device: R) {
    for (name, good, change) in [TEXTS, FORMATS, SIZES, RECTANGLES, CONTROLS, RANGES].concat() {
        let mut draft = Draft::bench();
        change(&mut draft);
        let expected = if good { 0 } else { 22 };
        assert_eq!(device.open(&draft.bytes(), [4096, 4096]), expected, "{name}");
        // A refused opening leaves a closed device, an accepted one is open.
        assert_eq!(device.request(0x8068_5600, &mut [0; 104]), expected, "{name}");
    }
}

/// Every word of the table of contents, one more and one less; every length but the right one.
fn contents<R: Recorder>(mut device: R) {
    let sheet = Draft::bench().bytes();
    for at in 0..32 {
        for change in [1, 255, 128] {
            let mut other = sheet.clone();
            other[at] = other[at].wrapping_add(change);
            assert_eq!(device.open(&other, [0, 0]), 22, "byte {at}");
        }
    }
    for length in 0..3000 {
        let mut other = sheet.clone();
        other.resize(length, 0);
        let expected = if length == sheet.len() { 0 } else { 22 };
        assert_eq!(device.open(&other, [0, 0]), expected, "length {length}");
    }
}

#[test]
fn the_model_keeps_the_edges() {
    edges(Device::closed());
    contents(Device::closed());
}

#[cfg(feature = "library")]
#[test]
fn the_library_keeps_the_edges() {
    edges(tollgutter_tests::ffi::Device::zeroed());
    contents(tollgutter_tests::ffi::Device::zeroed());
}
