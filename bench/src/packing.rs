//! Caption lines packed into a block, and a block read back into lines.

use crate::called::CalledPacker;
use crate::rounds::{Row, Side};
use std::hint::black_box;
use tollgutter_tests::ffi;
use tollgutter_tests::model::packing::{block_length, MOST};
use tollgutter_tests::model::services::{RECORD, SERVICES};
use tollgutter_tests::packing::judge::places;
use tollgutter_tests::packing::{Model, Packer, Way};
use tollgutter_tests::session::Frame;

const CALLS: usize = 64;

/// A call again and again, into the same output.
struct Batch<P> {
    packer: P,
    way: Way,
    input: Vec<u8>,
    output: Vec<u8>,
}

impl<P: Packer> Batch<P> {
    fn new(packer: P, way: Way, input: &[u8], room: usize) -> Batch<P> {
        let mut output = vec![0xA5; room];
        assert_eq!(packer.call(way, input, &mut output), 0, "{way:?} {} bytes", input.len());
        Batch { packer, way, input: input.to_vec(), output }
    }
}

impl<P: CalledPacker> Side for Batch<P> {
    fn ready(&mut self) {}

    fn batch(&mut self) {
        let (input, output) = (black_box(&self.input), black_box(&mut self.output));
        match self.way {
            Way::Write => (0..CALLS).for_each(|_| _ = black_box(self.packer.call_pack(input, output))),
            Way::Read => (0..CALLS).for_each(|_| _ = black_box(self.packer.call_unpack(input, output))),
        }
    }

    fn calls(&self) -> usize {
        CALLS
    }
}

/// The load line of the first field.
fn one_line() -> Vec<u8> {
    Frame::records(vec![[0x1000, 0, 21]], 7).bytes()
}

/// All lines, the services in turn, each line five after the one before it.
fn all_lines() -> Vec<u8> {
    let heads = places().zip(SERVICES.into_iter().cycle()).map(|((field, line), id)| [id.into(), field, line]);
    let heads: Vec<[u32; 3]> = heads.collect();
    Frame::records((0..MOST).map(|place| heads[5 * place % MOST]).collect(), 7).bytes()
}

fn row(name: String, way: Way, input: &[u8], room: usize) -> Row {
    let library = Batch::new(ffi::Packing, way, input, room);
    let rust = Batch::new(Model, way, input, room);
    assert!(library.output == rust.output, "{name}");
    Row { name, library: Box::new(library), other: Box::new(rust) }
}

/// Writing and reading, of one line and of all.
pub fn all() -> Vec<Row> {
    let rows = [("1 line", one_line()), ("36 lines", all_lines())].map(|(name, lines)| {
        let mut block = vec![0; block_length(lines.len() / RECORD)];
        assert_eq!(Model.pack(&lines, &mut block), 0, "{name}");
        let written = row(format!("pack, {name}"), Way::Write, &lines, block.len());
        [written, row(format!("unpack, {name}"), Way::Read, &block, lines.len())]
    });
    rows.into_iter().flatten().collect()
}
