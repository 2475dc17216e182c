//! The words that 01's examples name, and short forms of the answers.
#![allow(dead_code)]

use reference::answer::{Ground, Refusal};
use reference::check::check;
use reference::draw::draw;
use reference::kinds::words;
use reference::repair::{repair, repair_afresh, Repaired};
use reference::texture::TEXTURE_BYTES;
use reference::words::bytes_of;

pub const MODES: u64 = 0x2F30_0000_0000_0000;
pub const IMAGE: u64 = 0x3F10_0007_0000_0000;
pub const SCISSOR: u64 = 0x2D00_0000_0002_0010;
/// Setup S: FILL, 16 bits, width 8, address 0, scissor 8 by 4.
pub const S: [u64; 3] = [MODES, IMAGE, SCISSOR];
/// R: pixels (1,1) to (2,2).
pub const R: u64 = 0x3600_8008_0000_4004;
pub const N: u64 = 0;
pub const C: u64 = 0x3700_0000_F801_003F;
pub const L: u64 = 0x3400_0000_0000_0000;
pub const SYNC_LOAD: u64 = 0x2600_0000_0000_0000;
pub const SYNC_PIPE: u64 = 0x2700_0000_0000_0000;
pub const SYNC_TILE: u64 = 0x2800_0000_0000_0000;
pub const SYNC_FULL: u64 = 0x2900_0000_0000_0000;

/// Setup S and these words.
pub fn after_setup(words: &[u64]) -> Vec<u64> {
    S.iter().chain(words).copied().collect()
}

/// A command's number with all other bits zero.
pub fn command(number: u8) -> u64 {
    u64::from(number) << 56
}

/// The check's answer as number and place.
pub fn checked(words: &[u64]) -> (u8, usize) {
    answer(check(&bytes_of(words)).outcome)
}

/// The check's answer as number, place and cause.
pub fn caused(words: &[u64]) -> (u8, usize, usize) {
    caused_bytes(&bytes_of(words))
}

pub fn caused_bytes(list: &[u8]) -> (u8, usize, usize) {
    let checked = check(list);
    let (number, place) = answer(checked.outcome);
    (number, place, checked.cause)
}

/// A command of this number with all other bits zero, in all its words.
pub fn whole(number: u8) -> Vec<u64> {
    let mut command_words = vec![0; words(number)];
    command_words[0] = command(number);
    command_words
}

pub fn answer(outcome: Result<usize, Refusal>) -> (u8, usize) {
    match outcome {
        Ok(place) => (0, place),
        Err(refusal) => (refusal.ground as u8, refusal.place),
    }
}

/// The repaired list and its cycles.
pub fn repaired(words: &[u64]) -> (Vec<u8>, u32) {
    repaired_by(repair, words)
}

/// What the second repair writes, and its cycles.
pub fn repaired_afresh(words: &[u64]) -> (Vec<u8>, u32) {
    repaired_by(repair_afresh, words)
}

type Repair = fn(&[u8], &mut [u8], &mut [u8]) -> Result<Repaired, Refusal>;

fn repaired_by(repair: Repair, words: &[u64]) -> (Vec<u8>, u32) {
    let list = bytes_of(words);
    let mut work = vec![0xAA; 2 * list.len()];
    let mut out = vec![0xAA; 2 * list.len()];
    let Repaired { words, cycles } = repair(&list, &mut work, &mut out).expect("repairs");
    out.truncate(8 * words);
    (out, cycles)
}

/// Draws on memory of zeros that starts at address 0.
pub fn drawn(words: &[u64], length: usize) -> ((u8, usize), Vec<u8>) {
    let mut memory = vec![0; length];
    let outcome = drawn_at(&bytes_of(words), &mut memory, 0);
    (answer(outcome), memory)
}

/// Draws with texture memory of zeros.
pub fn drawn_at(list: &[u8], memory: &mut [u8], start: u64) -> Result<usize, Refusal> {
    draw(list, memory, start, &mut [0; TEXTURE_BYTES])
}

pub fn refused<T>(ground: Ground, place: usize) -> Result<T, Refusal> {
    Err(Refusal::new(ground, place))
}
