//! Bytes that are lent to a device, with guard bytes before and behind that no call may change.

const GUARD: usize = 64;
const MARK: u8 = 0xa5;

/// `body` bytes between two guards. The body may start at any alignment.
#[derive(Default)]
pub struct Guarded {
    bytes: Vec<u8>,
    start: usize,
    length: usize,
}

impl Guarded {
    /// Makes room for a body of this length. `shift` (0..7) moves it off its alignment. The content is not set.
    pub fn reset(&mut self, length: usize, shift: usize) {
        self.start = GUARD + shift % 8;
        self.length = length;
        let whole = self.start + length + GUARD;
        if self.bytes.len() < whole {
            self.bytes.resize(whole, MARK);
        }
        self.bytes.truncate(whole);
        self.bytes[..self.start].fill(MARK);
        self.bytes[self.start + length..].fill(MARK);
    }

    pub fn set(&mut self, content: &[u8], shift: usize) {
        self.reset(content.len(), shift);
        self.body_mut().copy_from_slice(content);
    }

    pub fn body(&self) -> &[u8] {
        &self.bytes[self.start..self.start + self.length]
    }

    pub fn body_mut(&mut self) -> &mut [u8] {
        &mut self.bytes[self.start..self.start + self.length]
    }

    /// True if no guard byte was changed.
    pub fn intact(&self) -> bool {
        let before = &self.bytes[..self.start];
        let behind = &self.bytes[self.start + self.length..];
        before.iter().chain(behind).all(|byte| *byte == MARK)
    }
}
