//! Picture formats: the nine codes, the nearest size, and how a picture lies in memory.

use super::bytes::{put, word};
use super::numbers::EINVAL;
use super::sheet::Sheet;
use crate::recorder::{Plane, PICTURES};

/// A code of four letters, the first in the lowest byte.
pub const fn four(letters: &[u8; 4]) -> u32 {
    u32::from_le_bytes(*letters)
}

pub const GREY: u32 = four(b"GREY");
pub const YU12: u32 = four(b"YU12");
pub const YV12: u32 = four(b"YV12");
pub const NV12: u32 = four(b"NV12");
pub const YUYV: u32 = four(b"YUYV");
pub const UYVY: u32 = four(b"UYVY");
pub const RGBP: u32 = four(b"RGBP");
pub const RGB3: u32 = four(b"RGB3");
pub const BGR3: u32 = four(b"BGR3");

pub const CODES: [u32; 9] = [GREY, YU12, YV12, NV12, YUYV, UYVY, RGBP, RGB3, BGR3];

/// Bytes of the first plane for each pixel of a line; nothing for a code that is not one of the nine.
fn bytes_per_pixel(code: u32) -> Option<u32> {
    match code {
        GREY | YU12 | YV12 | NV12 => Some(1),
        YUYV | UYVY | RGBP => Some(2),
        RGB3 | BGR3 => Some(3),
        _ => None,
    }
}

pub fn is_known(code: u32) -> bool {
    bytes_per_pixel(code).is_some()
}

/// 4:2:0 codes carry half as many colour bytes as luma bytes.
fn has_quarter_colour(code: u32) -> bool {
    matches!(code, YU12 | YV12 | NV12)
}

/// 8 for the RGB codes, 1 for all others.
fn colour_space(code: u32) -> u32 {
    match code {
        RGBP | RGB3 | BGR3 => 8,
        _ => 1,
    }
}

/// The sizes that are allowed in one direction: least, least + step, .. greatest.
#[derive(Clone, Copy)]
pub struct Sizes {
    pub least: u32,
    pub greatest: u32,
    pub step: u32,
}

impl Sizes {
    /// The nearest allowed size, the smaller one on a tie.
    #[inline]
    pub fn nearest(&self, wanted: u32) -> u32 {
        if wanted <= self.least {
            return self.least;
        }
        if wanted >= self.greatest {
            return self.greatest;
        }
        let over = (wanted - self.least) % self.step;
        if over <= self.step - over {
            wanted - over
        } else {
            wanted - over + self.step
        }
    }
}

/// A format that was settled on, with the sizes that follow from it.
#[derive(Clone, Copy)]
pub struct Picture {
    pub code: u32,
    pub width: u32,
    pub height: u32,
    pub line: u32,
    pub image_size: u32,
}

impl Picture {
    pub fn new(code: u32, width: u32, height: u32, alignment: u32) -> Picture {
        // A line is its pixels, rounded up to the alignment, which is a power of two.
        let pixels = width * bytes_per_pixel(code).unwrap_or(1);
        let line = (pixels + alignment - 1) & !(alignment - 1);
        // The image is its lines; 4:2:0 needs half as much again.
        let luma = line * height;
        let image_size = if has_quarter_colour(code) { luma + luma / 2 } else { luma };
        Picture { code, width, height, line, image_size }
    }

    /// What S_FMT and TRY_FMT make of a wish: nearest sizes, and the first format for a code that is not offered.
    #[inline]
    pub fn nearest(sheet: &Sheet, wish: &[u8; 204]) -> Picture {
        let wanted = word(wish, 12);
        let offered = sheet.formats.iter().any(|format| format.code == wanted);
        let code = if offered { wanted } else { sheet.formats[0].code };
        let width = sheet.width.nearest(word(wish, 4));
        let height = sheet.height.nearest(word(wish, 8));
        Picture::new(code, width, height, sheet.alignment)
    }

    /// The answer of the three format requests: type 1, the picture format, then zeros.
    #[inline]
    pub fn answer(&self, argument: &mut [u8; 204]) {
        put(argument, 0, PICTURES);
        put(argument, 4, self.width);
        put(argument, 8, self.height);
        put(argument, 12, self.code);
        put(argument, 16, 1);
        put(argument, 20, self.line);
        put(argument, 24, self.image_size);
        put(argument, 28, colour_space(self.code));
        argument[32..].fill(0);
    }

    /// The part of a frame that is this plane; refused for another length of frame and for a plane that is not there.
    pub fn plane(&self, frame_length: usize, plane: u32) -> Plane {
        if frame_length != self.image_size as usize {
            return NO_PLANE;
        }
        let luma = (self.line * self.height) as usize;
        // Half the line times half the height.
        let quarter = luma / 4;
        let (start, length) = match (self.code, plane) {
            (YU12 | YV12 | NV12, 0) => (0, luma),
            (YU12 | YV12, 1) => (luma, quarter),
            (YU12 | YV12, 2) => (luma + quarter, quarter),
            (NV12, 1) => (luma, luma / 2),
            (GREY | YUYV | UYVY | RGBP | RGB3 | BGR3, 0) => (0, frame_length),
            _ => return NO_PLANE,
        };
        Plane { number: 0, start, length }
    }
}

pub const NO_PLANE: Plane = Plane { number: EINVAL, start: 0, length: 0 };
