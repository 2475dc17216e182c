//! Request #102: the words of a command by its first word, and one step of the marks.

mod common;

use common::*;
use reference::comparison::laws::{test_steps, test_words};
use reference::comparison::rng::Rng;
use reference::comparison::side::Reference;
use reference::kinds::words_from;
use reference::packed::{self, Answer};
use reference::words::bytes_of;

/// Every command number with each setting of bits 63:62, and random other bits.
fn first_words() -> impl Iterator<Item = (u64, u64)> {
    let mut rng = Rng::new(5);
    (0..64 * 4 * 20).map(move |index| {
        let (number, ignored) = (index % 64, index / 64 % 4);
        let word = ignored << 62 | number << 56 | rng.number() >> 8;
        (number, word)
    })
}

/// "For triangles 4 plus 8, 8 and 2 for bits 58, 57 and 56, else by 01's table."
#[test]
fn words_by_rule() {
    for (number, word) in first_words() {
        let bit = |at: u64| word >> at & 1;
        let due = match number {
            0x08..=0x0F => 4 + 8 * bit(58) + 8 * bit(57) + 2 * bit(56),
            0x24 | 0x25 => 2,
            _ => 1,
        };
        assert_eq!(packed::words(word), due, "{word:016X}");
    }
}

#[test]
fn a_triangle_of_number_0d_has_14_words() {
    assert_eq!(words_from(command(0x0D)), 14);
    assert_eq!(words_from(0xCD00_0000_0000_0000), 14);
    assert_eq!(words_from(u64::MAX), 1);
    assert_eq!(words_from(u64::MAX >> 4), 22);
}

#[test]
fn decoding_takes_exactly_the_words() {
    let mut rng = Rng::new(6);
    for (_, word) in first_words() {
        assert_eq!(
            test_words(&Reference, &mut rng, word),
            Ok(()),
            "{word:016X}"
        );
    }
}

const P: u32 = 1;
const T: u32 = 2;
const D: u32 = 4;
const G: u32 = 8;

/// What a command does: the marks that it sets, the marks that it clears, the mark
/// that it must not meet, and the sync that is missing where it does.
fn effect(number: u32) -> (u32, u32, u32, u32) {
    match number {
        0x08 | 0x09 | 0x0C | 0x0D | 0x36 => (P | D, 0, G, 1),
        0x0A | 0x0B | 0x0E | 0x0F | 0x24 | 0x25 => (P | T | D, 0, G, 1),
        0x30 | 0x33 | 0x34 => (T | G, 0, D, 1),
        0x35 => (0, 0, T, 2),
        0x2A | 0x2B | 0x2C | 0x2F | 0x37 | 0x38 | 0x39 | 0x3B | 0x3C | 0x3E | 0x3F => (0, 0, P, 3),
        0x26 => (0, D | G, 0, 0),
        0x28 => (0, T | D | G, 0, 0),
        0x27 | 0x29 => (0, P | T | D | G, 0, 0),
        _ => (0, 0, 0, 0),
    }
}

#[test]
fn every_step() {
    let mut rng = Rng::new(7);
    for (hazards, number) in (0..16).flat_map(|marks| (0..64).map(move |number| (marks, number))) {
        let (sets, clears, meets, sync) = effect(number);
        let after = hazards & !clears | sets;
        let third = if hazards & meets != 0 { 4 + sync } else { 0 };
        let expected = u64::from(third) << 32 | u64::from(after);
        assert_eq!(
            packed::step(hazards, number),
            expected,
            "{hazards} {number:#04x}"
        );
        for _ in 0..8 {
            let above = rng.number();
            let hazards = hazards | (above as u32) << 4;
            let number = number | ((above >> 32) as u32) << 6;
            assert_eq!(
                packed::step(hazards, number),
                expected,
                "{hazards} {number:#x}"
            );
        }
    }
}

#[test]
fn the_steps_miss_the_sync_that_the_check_misses() {
    let missing = [
        (&[R, C][..], 9, 4),
        (&[R, N, L, C], 7, 5),
        (&[R, SYNC_PIPE, C], 0, 6),
    ];
    for (words, number, place) in missing {
        let list = bytes_of(&after_setup(words));
        let tested = |number, place| {
            let third = 0;
            let answer = Answer {
                number,
                place,
                third,
            };
            test_steps(&Reference, &list, answer).is_ok()
        };
        assert!(tested(number, place));
        assert!(!tested(8, place) && !tested(9, 3));
        assert_eq!(tested(0, 6), number == 0);
    }
}
