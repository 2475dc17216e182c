//! 01, "Words and lengths": 64-bit words, most significant byte first.

/// Bytes in a word.
pub const WORD_BYTES: usize = 8;

/// The word at a place, counted in words from 0.
pub fn word_at(list: &[u8], place: usize) -> u64 {
    let first = place * WORD_BYTES;
    let mut bytes = [0; WORD_BYTES];
    bytes.copy_from_slice(&list[first..first + WORD_BYTES]);
    u64::from_be_bytes(bytes)
}

/// Writes a word at a place.
pub fn write_word(bytes: &mut [u8], place: usize, word: u64) {
    let first = place * WORD_BYTES;
    bytes[first..first + WORD_BYTES].copy_from_slice(&word.to_be_bytes());
}

/// Words as bytes.
pub fn bytes_of(words: &[u64]) -> Vec<u8> {
    words.iter().flat_map(|word| word.to_be_bytes()).collect()
}

/// The bits `high:low` of a word.
pub fn bits(word: u64, high: u32, low: u32) -> u64 {
    (word >> low) & mask(high - low + 1)
}

/// A number with that many low bits set.
pub fn mask(width: u32) -> u64 {
    u64::MAX >> (64 - width)
}

/// "Bits 61:56 are the command number; bits 63:62 are ignored."
pub fn command_number(word: u64) -> u8 {
    bits(word, 61, 56) as u8
}
