//! Little-endian words in byte slices.

#[inline]
pub fn word(bytes: &[u8], at: usize) -> u32 {
    u32::from_le_bytes([bytes[at], bytes[at + 1], bytes[at + 2], bytes[at + 3]])
}

#[inline]
pub fn signed(bytes: &[u8], at: usize) -> i32 {
    word(bytes, at) as i32
}

/// A word of 16 bits.
#[inline]
pub fn half(bytes: &[u8], at: usize) -> u16 {
    u16::from_le_bytes([bytes[at], bytes[at + 1]])
}

#[inline]
pub fn put(bytes: &mut [u8], at: usize, value: u32) {
    bytes[at..at + 4].copy_from_slice(&value.to_le_bytes());
}

#[inline]
pub fn put_signed(bytes: &mut [u8], at: usize, value: i32) {
    put(bytes, at, value as u32);
}

#[inline]
pub fn put_half(bytes: &mut [u8], at: usize, value: u16) {
    bytes[at..at + 2].copy_from_slice(&value.to_le_bytes());
}
