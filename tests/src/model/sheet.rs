//! The device sheet: parsed once, at opening, and refused if any rule is broken.

use super::bytes::word;
use super::control::{Control, BOOLEAN, BUTTON, INTEGER, MENU};
use super::crop::Rectangle;
use super::format::{is_known, Sizes};

pub struct Sheet {
    pub identity: Identity,
    pub formats: Vec<Format>,
    pub width: Sizes,
    pub height: Sizes,
    pub alignment: u32,
    pub bounds: Rectangle,
    pub default: Rectangle,
    pub aspect: [u32; 2],
    pub controls: Vec<Control>,
}

pub struct Identity {
    pub driver: [u8; 16],
    pub card: [u8; 32],
    pub bus: [u8; 32],
    pub version: u32,
}

pub struct Format {
    pub code: u32,
    pub description: [u8; 32],
}

const IDENTITY_AT: usize = 32;
const FORMATS_AT: usize = 116;
const FORMAT_SIZE: usize = 36;
const GEOMETRY_SIZE: usize = 68;
const CONTROL_SIZE: usize = 68;

/// The sheet that these bytes are, or nothing if they break a rule.
pub fn parse(bytes: &[u8]) -> Option<Sheet> {
    let (format_count, control_count) = contents(bytes)?;
    let geometry_at = FORMATS_AT + FORMAT_SIZE * format_count;
    let controls_at = geometry_at + GEOMETRY_SIZE;

    let identity = identity(&bytes[IDENTITY_AT..FORMATS_AT])?;
    let formats = formats(&bytes[FORMATS_AT..geometry_at], format_count)?;
    let geometry = &bytes[geometry_at..controls_at];
    let controls = controls(&bytes[controls_at..], control_count)?;

    let bounds = bounds(geometry)?;
    Some(Sheet {
        identity,
        formats,
        width: sizes(geometry, 0)?,
        height: sizes(geometry, 12)?,
        alignment: alignment(word(geometry, 24))?,
        bounds,
        default: default_rectangle(geometry, &bounds)?,
        aspect: aspect(geometry)?,
        controls,
    })
}

/// The numbers of formats and controls, if the table of contents fits the sheet's length without a gap.
fn contents(bytes: &[u8]) -> Option<(usize, usize)> {
    if bytes.len() < IDENTITY_AT {
        return None;
    }
    let formats = word(bytes, 12);
    let controls = word(bytes, 28);
    if !(1..=9).contains(&formats) || controls > 32 {
        return None;
    }
    let geometry_at = 116 + 36 * formats;
    let controls_at = geometry_at + 68;
    let expected = [32, 1, 116, formats, geometry_at, 1, controls_at, controls];
    let table_is_right = expected.iter().enumerate().all(|(place, number)| word(bytes, 4 * place) == *number);
    let length_is_right = bytes.len() == (controls_at + 68 * controls) as usize;
    (table_is_right && length_is_right).then_some((formats as usize, controls as usize))
}

/// A text of a fixed length; it must hold a zero byte somewhere.
fn text<const N: usize>(bytes: &[u8], at: usize) -> Option<[u8; N]> {
    let field: [u8; N] = bytes[at..at + N].try_into().ok()?;
    field.contains(&0).then_some(field)
}

fn identity(bytes: &[u8]) -> Option<Identity> {
    Some(Identity { driver: text(bytes, 0)?, card: text(bytes, 16)?, bus: text(bytes, 48)?, version: word(bytes, 80) })
}

/// Formats have known codes, no code twice, and a description that ends.
fn formats(bytes: &[u8], count: usize) -> Option<Vec<Format>> {
    let mut formats: Vec<Format> = Vec::with_capacity(count);
    for part in bytes.chunks_exact(FORMAT_SIZE) {
        let code = word(part, 0);
        let repeated = formats.iter().any(|format| format.code == code);
        if repeated || !is_known(code) {
            return None;
        }
        formats.push(Format { code, description: text(part, 4)? });
    }
    Some(formats)
}

/// Sizes lie in 2..8,192; least and step are even and at least 2; whole steps lead from least to greatest.
fn sizes(geometry: &[u8], at: usize) -> Option<Sizes> {
    let sizes = Sizes { least: word(geometry, at), greatest: word(geometry, at + 4), step: word(geometry, at + 8) };
    let good = sizes.least >= 2
        && sizes.greatest <= 8192
        && sizes.least <= sizes.greatest
        && sizes.least.is_multiple_of(2)
        && sizes.step.is_multiple_of(2)
        && sizes.step >= 2
        && (sizes.greatest - sizes.least).is_multiple_of(sizes.step);
    good.then_some(sizes)
}

fn alignment(number: u32) -> Option<u32> {
    matches!(number, 2 | 4 | 8 | 16 | 32 | 64).then_some(number)
}

/// Bounds start in the range of 16 signed bits and are 1..8,192 wide and high.
fn bounds(geometry: &[u8]) -> Option<Rectangle> {
    let bounds = Rectangle::read(geometry, 28);
    let places = -32_768..=32_767;
    let lengths = 1..=8192;
    let good = places.contains(&bounds.left)
        && places.contains(&bounds.top)
        && lengths.contains(&bounds.width)
        && lengths.contains(&bounds.height);
    good.then_some(bounds)
}

/// The default rectangle is not empty and lies inside the bounds.
fn default_rectangle(geometry: &[u8], bounds: &Rectangle) -> Option<Rectangle> {
    let default = Rectangle::read(geometry, 44);
    let good = default.width >= 1 && default.height >= 1 && default.lies_inside(bounds);
    good.then_some(default)
}

/// Neither number of the pixel aspect is zero.
fn aspect(geometry: &[u8]) -> Option<[u32; 2]> {
    let aspect = [word(geometry, 60), word(geometry, 64)];
    (!aspect.contains(&0)).then_some(aspect)
}

/// Controls stand in the order of their ids, no id twice.
fn controls(bytes: &[u8], count: usize) -> Option<Vec<Control>> {
    let mut controls: Vec<Control> = Vec::with_capacity(count);
    for part in bytes.chunks_exact(CONTROL_SIZE) {
        let record: &[u8; 68] = part.try_into().ok()?;
        let control = Control::read(record);
        let rises = controls.last().is_none_or(|before| before.id < control.id);
        if !rises || !good_record(record) || !good_control(&control) {
            return None;
        }
        controls.push(control);
    }
    Some(controls)
}

/// The name ends and the two reserved words are zero.
fn good_record(record: &[u8; 68]) -> bool {
    record[8..40].contains(&0) && record[60..68] == [0; 8]
}

/// The id leaves bit 31 free, the flags are known, and the numbers fit the type.
fn good_control(control: &Control) -> bool {
    if control.id >= 0x8000_0000 || control.flags > 7 {
        return false;
    }
    match control.kind {
        INTEGER => good_range(control),
        BOOLEAN => good_range(control) && (control.minimum, control.maximum, control.step) == (0, 1, 1),
        MENU => good_range(control) && (control.minimum, control.step) == (0, 1),
        BUTTON => true,
        _ => false,
    }
}

/// Whole steps lead from minimum to maximum, and the default is one of these values.
fn good_range(control: &Control) -> bool {
    let [minimum, maximum, step, initial] =
        [control.minimum, control.maximum, control.step, control.initial].map(i64::from);
    minimum <= maximum
        && step >= 1
        && (maximum - minimum) % step == 0
        && (minimum..=maximum).contains(&initial)
        && (initial - minimum) % step == 0
}
