//! The names of the fields of an argument, for reports.

use crate::model::bytes::word;
use crate::model::words::*;
use crate::recorder::CAPTIONS;

type Names = &'static [(usize, &'static str)];

const CAPABILITY: Names =
    &[(0, "driver"), (16, "card"), (48, "bus_info"), (80, "version"), (84, "capabilities"), (88, "reserved")];
const DESCRIPTION: Names =
    &[(0, "index"), (4, "type"), (8, "flags"), (12, "description"), (44, "pixelformat"), (48, "reserved")];
const FORMAT: Names = &[
    (0, "type"),
    (4, "width"),
    (8, "height"),
    (12, "pixelformat"),
    (16, "field"),
    (20, "bytesperline"),
    (24, "sizeimage"),
    (28, "colorspace"),
    (32, "priv"),
    (36, "zeros behind the format"),
];
const SLICED_FORMAT: Names = &[
    (0, "type"),
    (4, "service_set"),
    (6, "service_lines of the first field"),
    (54, "service_lines of the second field"),
    (102, "padding"),
    (104, "io_size"),
    (108, "reserved"),
    (116, "zeros behind the format"),
];
const SLICED_CAPABILITY: Names = &[
    (0, "service_set"),
    (2, "service_lines of the first field"),
    (50, "service_lines of the second field"),
    (98, "padding"),
    (100, "type"),
    (104, "reserved"),
];
const BUFFERS: Names = &[(0, "count"), (4, "type"), (8, "memory"), (12, "reserved")];
const BUFFER: Names = &[
    (0, "index"),
    (4, "type"),
    (8, "bytesused"),
    (12, "flags"),
    (16, "field"),
    (20, "timestamp seconds"),
    (24, "timestamp microseconds"),
    (28, "timecode"),
    (44, "sequence"),
    (48, "memory"),
    (52, "offset"),
    (56, "length"),
    (60, "input"),
    (64, "reserved"),
];
const CONTROL: Names = &[(0, "id"), (4, "value")];
const QUERY: Names = &[
    (0, "id"),
    (4, "type"),
    (8, "name"),
    (40, "minimum"),
    (44, "maximum"),
    (48, "step"),
    (52, "default_value"),
    (56, "flags"),
    (60, "reserved"),
];
const CROPPING: Names = &[
    (0, "type"),
    (4, "bounds left"),
    (8, "bounds top"),
    (12, "bounds width"),
    (16, "bounds height"),
    (20, "defrect left"),
    (24, "defrect top"),
    (28, "defrect width"),
    (32, "defrect height"),
    (36, "pixelaspect numerator"),
    (40, "pixelaspect denominator"),
];
const CROP: Names = &[(0, "type"), (4, "left"), (8, "top"), (12, "width"), (16, "height")];

/// The field that the byte at this place belongs to, in a request with this argument.
pub fn name_at(request: u32, argument: &[u8], at: usize) -> &'static str {
    let is_sliced = argument.len() >= 4 && word(argument, 0) == CAPTIONS;
    let names = match request {
        QUERYCAP => CAPABILITY,
        ENUM_FMT => DESCRIPTION,
        G_FMT | S_FMT | TRY_FMT if is_sliced => SLICED_FORMAT,
        G_FMT | S_FMT | TRY_FMT => FORMAT,
        REQBUFS => BUFFERS,
        QUERYBUF | QBUF | DQBUF => BUFFER,
        G_CTRL | S_CTRL => CONTROL,
        QUERYCTRL => QUERY,
        CROPCAP => CROPPING,
        G_CROP | S_CROP => CROP,
        STREAMON | STREAMOFF => &[(0, "type")],
        G_SLICED_VBI_CAP => SLICED_CAPABILITY,
        _ => &[],
    };
    names.iter().rev().find(|(start, _)| *start <= at).map_or("no known field", |(_, name)| name)
}
