//! Requests made field by field, for tests that are written out by hand.

use crate::model::bytes::put;
use crate::model::words::size;
use crate::recorder::Recorder;

/// A request whose argument is zero but for these words: the number given back, and the argument after.
pub fn ask<R: Recorder>(device: &mut R, word: u32, fields: &[(usize, u32)]) -> (u32, Vec<u8>) {
    let mut argument = vec![0; size(word)];
    for (at, value) in fields {
        put(&mut argument, *at, *value);
    }
    let number = device.request(word, &mut argument);
    (number, argument)
}

/// A request that must be accepted: its answer.
pub fn done<R: Recorder>(device: &mut R, word: u32, fields: &[(usize, u32)]) -> Vec<u8> {
    let (number, argument) = ask(device, word, fields);
    assert_eq!(number, 0, "{word:#x} {fields:?}");
    argument
}
