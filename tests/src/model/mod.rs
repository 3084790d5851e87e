//! The model: one capture device in plain Rust, written from the requirements. It is made to be read, and to be fast:
//! the sheet is parsed once, and no request or arrival allocates.

pub mod buffers;
pub mod bytes;
pub mod control;
pub mod crop;
pub mod format;
pub mod numbers;
pub mod packing;
mod requests;
pub mod services;
pub mod sheet;
pub mod words;

use crate::recorder::{Arrived, Plane, BLANK, CAPTIONS, PICTURES, REFUSED};
use buffers::{Stream, MOST};
use crop::Rectangle;
use format::{Picture, NO_PLANE};
use numbers::{number, DONE, EINVAL};
use services::Lines;
use sheet::Sheet;

/// The longest memory of a stream.
pub const LONGEST_MEMORY: u64 = 1 << 30;

/// A run takes this many arrivals and no more: 2^63 - 1.
pub const RUN_LIMIT: u64 = i64::MAX as u64;

/// A device; one that is closed holds nothing.
pub struct Device {
    opened: Option<Opened>,
}

/// What an open device keeps.
pub struct Opened {
    pub sheet: Sheet,
    pub picture: Picture,
    pub crop: Rectangle,
    pub values: [i32; 32],
    /// The services of the caption stream's last accepted S_FMT.
    pub lines: Lines,
    pub pictures: Stream,
    pub captions: Stream,
}

/// Makes a device of a sheet, for memories of these lengths, that of the pictures first: 0, or 22 and a closed device.
pub fn open(sheet: &[u8], lengths: [u64; 2]) -> (u32, Device) {
    let too_long = lengths.iter().any(|length| *length > LONGEST_MEMORY);
    let parsed = if too_long { None } else { sheet::parse(sheet) };
    match parsed {
        Some(sheet) => (DONE, Device { opened: Some(Opened::new(sheet, lengths)) }),
        None => (EINVAL, Device::closed()),
    }
}

impl Opened {
    /// First format, greatest size, default crop with the fields apart, default values, no services, no buffers.
    fn new(sheet: Sheet, [picture_length, caption_length]: [u64; 2]) -> Opened {
        let mut values = [0; 32];
        for (value, control) in values.iter_mut().zip(&sheet.controls) {
            *value = control.initial;
        }
        let picture = Picture::new(sheet.formats[0].code, sheet.width.greatest, sheet.height.greatest, sheet.alignment);
        Opened {
            picture,
            crop: sheet.default.fields_apart(&sheet.bounds),
            values,
            lines: Lines::default(),
            pictures: Stream::new(PICTURES, picture_length, picture.image_size),
            captions: Stream::new(CAPTIONS, caption_length, 0),
            sheet,
        }
    }

    /// The stream that a buffer type names.
    #[inline]
    pub fn stream(&self, kind: u32) -> Option<&Stream> {
        match kind {
            PICTURES => Some(&self.pictures),
            CAPTIONS => Some(&self.captions),
            _ => None,
        }
    }

    #[inline]
    pub fn stream_mut(&mut self, kind: u32) -> Option<&mut Stream> {
        match kind {
            PICTURES => Some(&mut self.pictures),
            CAPTIONS => Some(&mut self.captions),
            _ => None,
        }
    }

    /// A picture is whole if it has the image size, a frame of captions if its lines were negotiated.
    fn arrival(&mut self, kind: u32, memory: &mut [u8], frame: &[u8], time: (i32, i32)) -> Arrived {
        match kind {
            PICTURES => {
                let size = self.picture.image_size as usize;
                self.pictures.arrival(memory, frame, time, |frame| frame.len() == size)
            }
            CAPTIONS => self.captions.arrival(memory, frame, time, |frame| self.lines.carry(frame)),
            _ => refused(EINVAL),
        }
    }
}

fn refused(number: u32) -> Arrived {
    Arrived { answer: REFUSED, number, buffer: 0 }
}

fn plain(answer: u32) -> Arrived {
    Arrived { answer, number: 0, buffer: 0 }
}

impl Device {
    pub fn closed() -> Device {
        Device { opened: None }
    }

    /// What the device keeps, for those who choose the next call.
    pub fn opened(&self) -> Option<&Opened> {
        self.opened.as_ref()
    }

    pub fn opened_mut(&mut self) -> Option<&mut Opened> {
        self.opened.as_mut()
    }

    /// A closed device refuses every request before any other check.
    pub fn request(&mut self, word: u32, argument: &mut [u8]) -> u32 {
        match &mut self.opened {
            Some(opened) => number(opened.request(word, argument)),
            None => EINVAL,
        }
    }

    /// Closed first, then the type, then what the stream has to say.
    pub fn arrival(&mut self, kind: u32, memory: &mut [u8], frame: &[u8], seconds: i32, microseconds: i32) -> Arrived {
        match &mut self.opened {
            Some(opened) => opened.arrival(kind, memory, frame, (seconds, microseconds)),
            None => refused(EINVAL),
        }
    }

    /// Counts a map of a buffer, told by its offset and length in the memory of its stream.
    pub fn map(&mut self, kind: u32, offset: u32, length: u32) -> u32 {
        number(self.stream_mut(kind).and_then(|stream| stream.map(offset, length)))
    }

    /// Takes one off that count.
    pub fn unmap(&mut self, kind: u32, offset: u32, length: u32) -> u32 {
        number(self.stream_mut(kind).and_then(|stream| stream.unmap(offset, length)))
    }

    /// The stream that the type names: a closed device has none.
    #[inline]
    fn stream_mut(&mut self, kind: u32) -> Result<&mut Stream, u32> {
        self.opened.as_mut().and_then(|opened| opened.stream_mut(kind)).ok_or(EINVAL)
    }

    /// Of the stream that the type names; a closed device and another type have no film.
    pub fn verdict(&self, kind: u32) -> u32 {
        let stream = self.opened.as_ref().and_then(|opened| opened.stream(kind));
        stream.map_or(BLANK, Stream::verdict)
    }

    pub fn plane(&self, frame_length: usize, plane: u32) -> Plane {
        self.opened.as_ref().map_or(NO_PLANE, |opened| opened.picture.plane(frame_length, plane))
    }
}

// The sheet has at most as many controls as there are values, and as many buffers as places.
const _: () = assert!(MOST == 32);
