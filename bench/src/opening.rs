//! The opening of the largest sheet.

use crate::called::Called;
use crate::rounds::{Row, Side};
use crate::setup::{self, Aligned};
use std::hint::black_box;
use tollgutter_tests::{ffi, model};

const OPENINGS: usize = 16;

struct Opening<R> {
    device: Aligned<R>,
    sheet: Vec<u8>,
}

impl<R: Called> Side for Opening<R> {
    fn ready(&mut self) {}

    fn batch(&mut self) {
        for _ in 0..OPENINGS {
            assert_eq!(self.device.0.call_open(black_box(&self.sheet), [1 << 20; 2]), 0);
        }
    }

    fn calls(&self) -> usize {
        OPENINGS
    }
}

pub fn all() -> Vec<Row> {
    let sheet = setup::largest_sheet();
    let library = Opening { device: Aligned(ffi::Device::zeroed()), sheet: sheet.clone() };
    let rust = Opening { device: Aligned(model::Device::closed()), sheet };
    vec![Row { name: "the largest sheet".into(), library: Box::new(library), other: Box::new(rust) }]
}
