//! Sheets as they are drafted: fields that can be good or bad, written out as the bytes of a sheet.

use crate::model::format::{YU12, YUYV};

#[derive(Clone)]
pub struct Draft {
    pub driver: [u8; 16],
    pub card: [u8; 32],
    pub bus: [u8; 32],
    pub version: u32,
    pub formats: Vec<(u32, [u8; 32])>,
    pub width: [u32; 3],
    pub height: [u32; 3],
    pub alignment: u32,
    /// Left, top, width, height.
    pub bounds: [i32; 4],
    pub default: [i32; 4],
    pub aspect: [u32; 2],
    pub controls: Vec<ControlDraft>,
}

#[derive(Clone, Copy)]
pub struct ControlDraft {
    pub id: u32,
    pub kind: u32,
    pub name: [u8; 32],
    pub minimum: i32,
    pub maximum: i32,
    pub step: i32,
    pub initial: i32,
    pub flags: u32,
    pub reserved: [u32; 2],
}

/// A text in a field of fixed length, zeros behind.
pub fn text<const N: usize>(from: &str) -> [u8; N] {
    let mut field = [0; N];
    let length = from.len().min(N - 1);
    field[..length].copy_from_slice(&from.as_bytes()[..length]);
    field
}

impl Draft {
    pub fn bytes(&self) -> Vec<u8> {
        let geometry_at = 116 + 36 * self.formats.len() as u32;
        let controls_at = geometry_at + 68;
        let counts = [self.formats.len() as u32, self.controls.len() as u32];
        let mut bytes = Vec::with_capacity(2684);
        words(&mut bytes, &[32, 1, 116, counts[0], geometry_at, 1, controls_at, counts[1]]);
        bytes.extend(self.driver);
        bytes.extend(self.card);
        bytes.extend(self.bus);
        words(&mut bytes, &[self.version]);
        for (code, description) in &self.formats {
            words(&mut bytes, &[*code]);
            bytes.extend(description);
        }
        words(&mut bytes, &self.width);
        words(&mut bytes, &self.height);
        words(&mut bytes, &[self.alignment]);
        words(&mut bytes, &self.bounds.map(|number| number as u32));
        words(&mut bytes, &self.default.map(|number| number as u32));
        words(&mut bytes, &self.aspect);
        for control in &self.controls {
            control.write(&mut bytes);
        }
        bytes
    }

    /// The sheet of the bench figures.
    pub fn bench() -> Draft {
        Draft {
            driver: text("bench"),
            card: text("bench recorder"),
            bus: text("bench bus"),
            version: 1,
            formats: vec![(YUYV, text("packed")), (YU12, text("planar"))],
            width: [160, 640, 16],
            height: [120, 480, 2],
            alignment: 64,
            bounds: [-8, 0, 640, 400],
            default: [-8, 0, 640, 400],
            aspect: [1, 1],
            controls: vec![ControlDraft {
                id: 0x0098_0901,
                kind: 1,
                name: text("contrast"),
                minimum: -10,
                maximum: 10,
                step: 4,
                initial: -2,
                flags: 0,
                reserved: [0; 2],
            }],
        }
    }
}

impl ControlDraft {
    fn write(&self, bytes: &mut Vec<u8>) {
        words(bytes, &[self.id, self.kind]);
        bytes.extend(self.name);
        words(bytes, &[self.minimum, self.maximum, self.step, self.initial].map(|number| number as u32));
        words(bytes, &[self.flags]);
        words(bytes, &self.reserved);
    }
}

fn words(bytes: &mut Vec<u8>, words: &[u32]) {
    for word in words {
        bytes.extend(word.to_le_bytes());
    }
}
