//! Request #113: a finished image becomes RGBA rows.

mod common;

use common::*;
use reference::comparison::calls::{Call, Function};
use reference::comparison::laws::test_afresh_drawing;
use reference::comparison::lent::Lent;
use reference::comparison::rng::Rng;
use reference::comparison::side::Reference;
use reference::packed::{self, Answer};
use reference::texture::TEXTURE_BYTES;
use reference::view::{view, Image};
use reference::words::bytes_of;

fn image(width: u32, height: u32, size: u32) -> Image {
    Image {
        address: 0,
        width,
        height,
        size,
    }
}

/// The rows of an image at the start of memory.
fn rows(memory: &[u8], image: Image) -> Vec<u8> {
    let mut out = vec![0xAA; 64];
    let bytes = view(memory, 0, image, &mut out).expect("is shown");
    assert!(out[bytes..].iter().all(|byte| *byte == 0xAA));
    out.truncate(bytes);
    out
}

/// A refusal's number and place. Nothing is written.
fn refused_at(memory: usize, start: u64, image: Image, out: usize) -> (u8, usize) {
    let memory = vec![0x55; memory];
    let mut out = vec![0xAA; out];
    let refusal = view(&memory, start, image, &mut out).expect_err("is refused");
    assert!(out.iter().all(|byte| *byte == 0xAA));
    (refusal.ground as u8, refusal.place)
}

#[test]
fn pixels_of_8_bits() {
    let memory = [0, 1, 128, 255];
    let expected = [0, 0, 0, 255, 1, 1, 1, 255];
    assert_eq!(rows(&memory, image(2, 1, 1)), expected);
    assert_eq!(rows(&memory, image(1, 2, 1)), expected);
    assert_eq!(rows(&memory, image(2, 2, 1))[8..12], [128, 128, 128, 255]);
}

#[test]
fn pixels_of_16_bits() {
    let pixel = |word: u16| rows(&word.to_be_bytes(), image(1, 1, 2));
    assert_eq!(pixel(0xF800), [255, 0, 0, 0]);
    assert_eq!(pixel(0x07C0), [0, 255, 0, 0]);
    assert_eq!(pixel(0x003E), [0, 0, 255, 0]);
    assert_eq!(pixel(0x0001), [0, 0, 0, 255]);
    assert_eq!(pixel(0x0841), [8, 8, 0, 255]);
    // 8 · 4 + 1, 8 · 15 + 3, 8 · 16 + 4.
    assert_eq!(pixel(4 << 11 | 15 << 6 | 16 << 1), [33, 123, 132, 0]);
}

#[test]
fn pixels_of_32_bits() {
    let memory = [1, 2, 3, 4, 5, 6, 7, 8];
    assert_eq!(rows(&memory, image(2, 1, 3)), memory);
}

#[test]
fn images_that_are_not_shown() {
    for wrong in [0, 1_025, 1 << 16, u32::MAX] {
        assert_eq!(refused_at(64, 0, image(wrong, 1, 1), 64), (27, 0));
        assert_eq!(refused_at(64, 0, image(1, wrong, 1), 64), (27, 0));
        assert_eq!(refused_at(0, 9, image(1, wrong, 1), 0), (27, 0));
    }
    for size in [0, 4, 5, 0x101, u32::MAX] {
        assert_eq!(refused_at(64, 0, image(1, 1, size), 64), (27, 0));
    }
    let largest = image(1_024, 1_024, 2);
    assert_eq!(refused_at(2 << 20, 0, largest, 0), (14, 4 << 20));
    assert_eq!(refused_at((2 << 20) - 1, 0, largest, 0), (12, 0));
}

#[test]
fn images_outside_memory() {
    let at = |address| Image {
        address,
        ..image(3, 2, 2)
    };
    assert_eq!(refused_at(11, 0, at(0), 0), (12, 0));
    assert_eq!(refused_at(12, 0, at(0), 0), (14, 24));
    assert_eq!(refused_at(20, 100, at(108), 23), (14, 24));
    assert_eq!(refused_at(20, 100, at(109), 23), (12, 0));
    assert_eq!(refused_at(20, 100, at(99), 23), (12, 0));
    assert_eq!(refused_at(20, 100, at(u64::MAX), 23), (12, 0));
    assert_eq!(refused_at(200, u64::MAX - 9, at(0), 23), (12, 0));
    // Both go on beyond the last address.
    assert_eq!(
        refused_at(200, u64::MAX - 9, at(u64::MAX - 3), 23),
        (14, 24)
    );
}

#[test]
fn the_answer_in_c() {
    let mut out = [0; 24];
    let answer = packed::view(&[0; 12], 0, image(3, 2, 2), &mut out);
    let expected = Answer {
        number: 0,
        place: 24,
        third: 0,
    };
    assert_eq!(Answer::unpack(answer), expected);
}

/// Example I, with syncs that nobody needs: drawn and viewed as its second repair is.
#[test]
fn a_picture_and_that_of_the_second_repair() {
    let words = after_setup(&[SYNC_PIPE, C, SYNC_LOAD, R, SYNC_TILE]);
    let afresh: Vec<u8> = repaired_afresh(&words).0;
    assert_eq!(afresh, bytes_of(&after_setup(&[C, R])));
    let picture = |list: &[u8]| {
        let mut memory = [0; 64];
        drawn_at(list, &mut memory, 0).expect("is drawn");
        rows_of_64(&memory)
    };
    assert_eq!(picture(&bytes_of(&words)), picture(&afresh));
    let mut rng = Rng::new(1);
    let drawn = Call {
        list: Lent::of(&mut rng, &bytes_of(&words)),
        memory: Lent::random(&mut rng, 64),
        texture: Lent::random(&mut rng, TEXTURE_BYTES),
        ..Call::of(Function::Draw)
    };
    assert_eq!(test_afresh_drawing(&Reference, &drawn), Ok(()));
}

fn rows_of_64(memory: &[u8]) -> Vec<u8> {
    let mut out = vec![0; 128];
    assert_eq!(view(memory, 0, image(8, 4, 2), &mut out), Ok(128));
    out
}
