//! Writes steps and sheets in the names of V4L2.

use crate::model::bytes::{half, put, signed, word};
use crate::model::sheet;
use crate::model::words::{self, *};
use crate::recorder::CAPTIONS;
use crate::runner::{hex, Difference};
use crate::session::{Age, Arrival, Lent, Mapping, Session, Step};

/// How a field is written.
#[derive(Clone, Copy)]
enum Kind {
    Number,
    Signed,
    Id,
    Code,
}
use Kind::{Code, Id, Number, Signed};

type Field = (usize, &'static str, Kind);

const RECTANGLE: [Field; 5] =
    [(0, "type", Number), (4, "left", Signed), (8, "top", Signed), (12, "width", Signed), (16, "height", Signed)];

/// The fields that are asked with, or that matter to a reader.
fn fields(request: u32, argument: &[u8]) -> &'static [Field] {
    match request {
        G_FMT | S_FMT | TRY_FMT if word(argument, 0) == CAPTIONS => &[(0, "type", Number)],
        ENUM_FMT => &[(0, "index", Number), (4, "type", Number)],
        G_FMT | S_FMT | TRY_FMT => {
            &[(0, "type", Number), (4, "width", Number), (8, "height", Number), (12, "pixelformat", Code)]
        }
        REQBUFS => &[(0, "count", Number), (4, "type", Number), (8, "memory", Number)],
        QUERYBUF | QBUF | DQBUF => &[(0, "index", Number), (4, "type", Number), (48, "memory", Number)],
        STREAMON | STREAMOFF | CROPCAP | G_CROP => &[(0, "type", Number)],
        G_CTRL | S_CTRL => &[(0, "id", Id), (4, "value", Signed)],
        QUERYCTRL => &[(0, "id", Id)],
        S_CROP => &RECTANGLE,
        G_SLICED_VBI_CAP => &[(100, "type", Number)],
        _ => &[],
    }
}

fn code(number: u32) -> String {
    let letters = number.to_le_bytes();
    if letters.iter().all(u8::is_ascii_graphic) {
        String::from_utf8_lossy(&letters).into_owned()
    } else {
        format!("{number:#010x}")
    }
}

fn field(argument: &[u8], (at, name, kind): Field) -> String {
    match kind {
        Number => format!(" {name}={}", word(argument, at)),
        Signed => format!(" {name}={}", signed(argument, at)),
        Id => format!(" {name}={:#x}", word(argument, at)),
        Code => format!(" {name}={}", code(word(argument, at))),
    }
}

/// The services that are asked for, line by line where any are; field and line stand before a line's set.
fn services(argument: &[u8]) -> String {
    let mut text = format!(" service_set={:#06x} service_lines", half(argument, 4));
    for place in 0..48 {
        let set = half(argument, 6 + 2 * place);
        if set != 0 {
            text += &format!(" {}/{}={set:#06x}", place / 24, place % 24);
        }
    }
    text
}

/// A request: its named fields, and the other bytes if any is not zero.
fn request(number: u32, argument: &[u8]) -> String {
    let Some((_, name)) = ALL.iter().find(|(known, _)| *known == number) else {
        return format!("unknown word {number:#010x} with {} bytes {}", argument.len(), hex(argument));
    };
    if argument.len() != words::size(number) {
        return format!("VIDIOC_{name} with {} bytes instead of {}", argument.len(), words::size(number));
    }
    let mut text = format!("VIDIOC_{name}");
    let mut rest = argument.to_vec();
    for one in fields(number, argument) {
        text += &field(argument, *one);
        put(&mut rest, one.0, 0);
    }
    if matches!(number, S_FMT | TRY_FMT) && word(argument, 0) == CAPTIONS {
        text += &services(argument);
        rest[4..102].fill(0);
    }
    if rest.iter().any(|byte| *byte != 0) {
        text += &format!(" and other bytes {}", hex(&rest));
    }
    text
}

/// The sheet in short, and whole as hex.
fn opening(bytes: &[u8], [picture_length, caption_length]: [u64; 2]) -> String {
    let summary = match sheet::parse(bytes) {
        None => "a bad sheet".into(),
        Some(sheet) => {
            let codes: Vec<String> = sheet.formats.iter().map(|format| code(format.code)).collect();
            let (width, height, bounds) = (sheet.width, sheet.height, sheet.bounds);
            let mut text = format!(
                "formats {}, width {}..{} step {}, height {}..{} step {}, alignment {}, bounds {},{} {}x{}",
                codes.join(" "),
                width.least,
                width.greatest,
                width.step,
                height.least,
                height.greatest,
                height.step,
                sheet.alignment,
                bounds.left,
                bounds.top,
                bounds.width,
                bounds.height,
            );
            for control in &sheet.controls {
                text += &format!(
                    "\n        control {:#x} type {} {}..{} step {} default {} flags {}",
                    control.id,
                    control.kind,
                    control.minimum,
                    control.maximum,
                    control.step,
                    control.initial,
                    control.flags
                );
            }
            text
        }
    };
    let memories = format!("picture memory {picture_length}, caption memory {caption_length}");
    format!("open, {memories}: {summary}\n        sheet {}", hex(bytes))
}

/// A frame by its length, its seed and the heads of its records.
fn arrival(arrival: &Arrival) -> String {
    let frame = &arrival.frame;
    let mut text = format!(
        "arrival of type {}, {} bytes (seed {:#x}) at {} s {} us",
        arrival.kind, frame.length, frame.seed, arrival.seconds, arrival.microseconds
    );
    match arrival.lent {
        Lent::Own => {}
        Lent::Swapped => text += ", lent the memory of the other stream",
        Lent::Other(length) => text += &format!(", lent another memory of {length} bytes"),
    }
    for [service, field, line] in &frame.heads {
        text += &format!("\n        record of service {service:#06x}, field {field}, line {line}");
    }
    text
}

/// The bytes that are mapped or unmapped.
fn mapping(call: &str, mapping: &Mapping) -> String {
    let Mapping { kind, offset, length, times } = mapping;
    let text = format!("{call} of type {kind}, offset {offset}, length {length}");
    match times {
        1 => text,
        _ => format!("{text}, {times} times"),
    }
}

/// The count that a run comes to without a call.
fn age(age: &Age) -> String {
    let Age { kind, accepted, damaged, dropped } = age;
    let lost = format!("{damaged} of those that are added damaged, {dropped} dropped");
    format!("the run of type {kind} is made old: {accepted} accepted, {lost}")
}

pub fn step(step: &Step) -> String {
    match step {
        Step::Open { sheet, lengths } => opening(sheet, *lengths),
        Step::Request { word, argument } => request(*word, argument),
        Step::Arrival(one) => arrival(one),
        Step::Map(one) => mapping("map", one),
        Step::Unmap(one) => mapping("unmap", one),
        Step::Age(one) => age(one),
        Step::Plane { frame_length, plane } => format!("plane {plane} of a frame of {frame_length} bytes"),
    }
}

/// The whole session, with the difference at its end.
pub fn report(session: &Session, difference: &Difference) -> String {
    let mut text = String::new();
    if session.before_opening() != 0 {
        text += &format!("  the device held random bytes (seed {:#x}) before\n", session.before);
    }
    for (place, one) in session.steps.iter().enumerate() {
        text += &format!("  {place:>4}  {}\n", step(one));
    }
    text += &format!(
        "  after step {}: {}\n    expected {}\n    got      {}",
        difference.step, difference.what, difference.expected, difference.got
    );
    text
}
