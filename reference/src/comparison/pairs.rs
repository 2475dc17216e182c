//! Pairs of lists: request #110.

use crate::comparison::builder::Builder;
use crate::comparison::lists::{damaged, list};
use crate::comparison::rng::Rng;
use crate::kinds::{commands, words};
use crate::words::{word_at, write_word, WORD_BYTES};

/// The two lists of a case, of which one is most often the case's own list.
pub fn pair(rng: &mut Rng, case: u64, own: &[u8]) -> (Vec<u8>, Vec<u8>) {
    let number = (case % 64) as u8;
    let (first, second) = match rng.below(6) {
        0 => bit_by_bit(rng, number),
        1 => (commands_of(rng, number, 2), commands_of(rng, number, 2)),
        _ => (own.to_vec(), second(rng, case, own)),
    };
    if rng.one_in(2) {
        (first, second)
    } else {
        (second, first)
    }
}

/// Commands of one number, each of which differs from that of the other list in one bit,
/// from any bit on.
fn bit_by_bit(rng: &mut Rng, number: u8) -> (Vec<u8>, Vec<u8>) {
    let bits = 64 * words(number) as u64;
    let first = commands_of(rng, number, bits.min(64));
    let mut second = first.clone();
    let start = rng.below(bits);
    for (turn, command) in (0..).zip(commands(&first)) {
        let bit = (start + turn) % bits;
        let is_number = (56..62).contains(&bit);
        if !is_number {
            let place = command.place + bit as usize / 64;
            write_word(&mut second, place, word_at(&first, place) ^ 1 << (bit % 64));
        }
    }
    (first, second)
}

/// So many commands with this number.
fn commands_of(rng: &mut Rng, number: u8, count: u64) -> Vec<u8> {
    let mut builder = Builder::new(rng, 0);
    for _ in 0..count {
        builder.random(number);
    }
    builder.list()
}

/// A list to compare with a first one: most often much like it.
fn second(rng: &mut Rng, case: u64, first: &[u8]) -> Vec<u8> {
    match rng.below(20) {
        0 => first.to_vec(),
        1 => list(rng, case),
        2 => list(rng, case + 1),
        3..=4 => damaged(rng, |_| first.to_vec()),
        5..=6 => with_fewer(rng, first),
        7 => with_more(rng, first),
        8 => with_another_command(rng, first),
        _ => with_other_bits(rng, first),
    }
}

/// Some bits of it changed, most often none of a command's number.
fn with_other_bits(rng: &mut Rng, first: &[u8]) -> Vec<u8> {
    let mut other = first.to_vec();
    let words = first.len() as u64 / 8;
    if words == 0 {
        return other;
    }
    for _ in 0..rng.pick(&[1, 1, 2, 5]) {
        let place = rng.below(words) as usize;
        let keeps_numbers = !rng.one_in(20);
        let bit = rng.below(if keeps_numbers { 56 } else { 64 });
        write_word(&mut other, place, word_at(first, place) ^ 1 << bit);
    }
    other
}

/// Without its last commands, or without one in between.
fn with_fewer(rng: &mut Rng, first: &[u8]) -> Vec<u8> {
    let mut other = first.to_vec();
    let count = commands(first).count() as u64;
    let Some(command) = commands(first).nth(rng.below(count + 1) as usize) else {
        return other;
    };
    let start = command.place * WORD_BYTES;
    if rng.one_in(2) {
        other.truncate(start);
    } else {
        let end = start + words(command.number()) * WORD_BYTES;
        other.drain(start..end.min(first.len()));
    }
    other
}

/// With more commands after it.
fn with_more(rng: &mut Rng, first: &[u8]) -> Vec<u8> {
    let number = rng.below(64) as u8;
    [first.to_vec(), commands_of(rng, number, 1)].concat()
}

/// With another command in the place of one, perhaps of another length.
fn with_another_command(rng: &mut Rng, first: &[u8]) -> Vec<u8> {
    let count = commands(first).count() as u64;
    let at = rng.below(count + 1) as usize;
    let Some(command) = commands(first).nth(at) else {
        return first.to_vec();
    };
    let start = command.place * WORD_BYTES;
    let end = start + words(command.number()) * WORD_BYTES;
    let number = rng.below(64) as u8;
    let after = &first[end.min(first.len())..];
    [&first[..start], &commands_of(rng, number, 1), after].concat()
}
