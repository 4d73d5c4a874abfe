//! Words in bytes: two to a word, low byte first.

use std::ops::Range;

/// How many whole words there are in the bytes.
pub fn count(bytes: &[u8]) -> usize {
    bytes.len() / 2
}

/// The bytes of some words.
pub fn bytes(words: Range<usize>) -> Range<usize> {
    2 * words.start..2 * words.end
}

pub fn word(bytes: &[u8], at: usize) -> u16 {
    u16::from_le_bytes([bytes[2 * at], bytes[2 * at + 1]])
}

pub fn set_word(bytes: &mut [u8], at: usize, value: u16) {
    bytes[2 * at..2 * at + 2].copy_from_slice(&value.to_le_bytes());
}
