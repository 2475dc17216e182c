//! 01, "Run, not proved", the lengths at which an answer changes, and what a
//! refusal leaves in the lent buffers.

mod common;

use common::*;
use reference::answer::Ground;
use reference::draw::draw;
use reference::packed::{self, Answer};
use reference::repair::{repair, Repaired};
use reference::words::bytes_of;

/// Fills the row of pixels 0 to 7 with bytes, under a scissor with this right
/// edge, and answers how many pixels were kept.
fn kept_columns(right: u64) -> usize {
    let image = 0x3F08_0007_0000_0000;
    let scissor = 0x2D00_0000_0000_0004 | right << 12;
    let row = 0x3601_C000_0000_0000;
    let color = 0x3700_0000_FFFF_FFFF;
    let (answer, memory) = drawn(&[MODES, image, scissor, color, row], 8);
    assert_eq!(answer, (0, 5));
    memory.iter().filter(|byte| **byte == 0xFF).count()
}

#[test]
fn scissor_right_edge() {
    assert_eq!(kept_columns(8), 2, "x up to 1");
    assert_eq!(kept_columns(9), 3, "x up to 2");
}

#[test]
fn check_takes_32768_bytes() {
    assert_eq!(caused_bytes(&[0; 32_768]), (0, 4_096, 4_096));
    assert_eq!(caused_bytes(&[0; 32_769]), (1, 4_096, 4_096));
    assert_eq!(caused_bytes(&[0; 32_776]), (1, 4_096, 4_097));
    assert_eq!(caused_bytes(&[0; 32_767]), (2, 4_095, 4_095));
}

#[test]
fn check_does_not_read_a_list_that_is_too_long() {
    assert_eq!(caused_bytes(&[0x36; 40_000]), (1, 4_096, 5_000));
}

/// The third number has 24 bits: 16,777,215 stands for that and more.
#[test]
fn the_words_of_a_list_of_128_mib() {
    let list = vec![0; 128 << 20];
    let third = |length| Answer::unpack(packed::check(&list[..length])).third;
    assert_eq!(third(list.len() - 16), 16_777_214);
    assert_eq!(third(list.len() - 8), 16_777_215);
    assert_eq!(third(list.len() - 1), 16_777_215);
    assert_eq!(third(list.len()), 16_777_215);
}

#[test]
fn repair_takes_16384_bytes() {
    let mut work = vec![0; 40_000];
    let mut out = vec![0; 40_000];
    let mut run = |length| repair(&vec![0; length], &mut work, &mut out);
    let all = Repaired {
        words: 2_048,
        cycles: 0,
    };
    assert_eq!(run(16_384), Ok(all));
    assert_eq!(run(16_385), refused(Ground::ListTooLong, 2_048));
    assert_eq!(run(16_392), refused(Ground::ListTooLong, 2_048));
    assert_eq!(run(16_383), refused(Ground::PartialWord, 2_047));
}

#[test]
fn lent_memory_of_37_and_38_bytes() {
    let list = after_setup(&[C, R]);
    assert_eq!(drawn(&list, 37), ((12, 4), vec![0; 37]));
    assert_eq!(drawn(&list, 38).0, (0, 5));
}

#[test]
fn no_sum_of_the_start_wraps() {
    let list = bytes_of(&after_setup(&[C, R]));
    for distance in 0..64 {
        let mut memory = vec![0xAA; 200];
        let outcome = drawn_at(&list, &mut memory, u64::MAX - distance);
        assert_eq!(outcome, refused(Ground::OutsideMemory, 4));
        assert_eq!(memory, vec![0xAA; 200]);
    }
}

#[test]
fn memory_that_starts_at_the_first_byte() {
    let list = bytes_of(&after_setup(&[C, R]));
    let mut memory = vec![0; 20];
    assert_eq!(drawn_at(&list, &mut memory, 18), Ok(5));
    assert_eq!(memory[..4], [0x00, 0x3F, 0xF8, 0x01]);
    assert_eq!(memory[16..], [0x00, 0x3F, 0xF8, 0x01]);
    let outcome = drawn_at(&list, &mut memory, 19);
    assert_eq!(outcome, refused(Ground::OutsideMemory, 4));
}

#[test]
fn a_later_refusal_leaves_the_first_rectangle_unpainted() {
    let outside = 0x3600_8010_0000_4010;
    let scissor = 0x2D00_0000_00FF_FFFF;
    let list = [MODES, IMAGE, scissor, C, R, outside];
    assert_eq!(drawn(&list, 64), ((12, 5), vec![0; 64]));
}

#[test]
fn misaligned_image_even_when_nothing_is_covered() {
    let image = IMAGE | 32;
    let covers_nothing = 0x3600_0000_0000_4004;
    let list = [MODES, image, SCISSOR, covers_nothing];
    assert_eq!(drawn(&list, 0).0, (11, 3));
    let list = [MODES, IMAGE, SCISSOR, covers_nothing];
    assert_eq!(drawn(&list, 0).0, (0, 4));
}

#[test]
fn other_draws_are_not_drawn() {
    let texture_rectangle = [command(0x24), 0];
    assert_eq!(drawn(&after_setup(&texture_rectangle), 0).0, (10, 3));
    let one_cycle = [command(0x2F), IMAGE, SCISSOR, R];
    assert_eq!(drawn(&one_cycle, 64).0, (10, 3));
}

/// Request #107: 19 comes with the check, before 13, 14 and 16.
#[test]
fn repair_and_drawing_refuse_unassigned_numbers() {
    let words = after_setup(&[C, R, command(0x20)]);
    let list = bytes_of(&words);
    let outcome = repair(&list, &mut [], &mut []);
    assert_eq!(outcome, refused(Ground::UnassignedNumber, 5));
    assert_eq!(drawn(&words, 64), ((19, 5), vec![0; 64]));
    let outcome = draw(&list, &mut [], 0, &mut []);
    assert_eq!(outcome, refused(Ground::UnassignedNumber, 5));
}

#[test]
fn repair_tests_the_work_buffer_before_the_output() {
    let list = bytes_of(&after_setup(&[R, L, C]));
    let mut work = vec![0xAA; 95];
    let mut out = vec![0xAA; 55];
    let outcome = repair(&list, &mut work, &mut out);
    assert_eq!(outcome, refused(Ground::WorkTooShort, 6));
    assert_eq!((work, out), (vec![0xAA; 95], vec![0xAA; 55]));
}

#[test]
fn repair_clears_the_work_buffer_when_the_output_is_too_short() {
    let list = bytes_of(&after_setup(&[R, L, C]));
    let mut work = vec![0xAA; 97];
    let mut out = vec![0xAA; 55];
    let outcome = repair(&list, &mut work, &mut out);
    assert_eq!(outcome, refused(Ground::OutputTooShort, 7));
    assert_eq!(work[..96], [0; 96]);
    assert_eq!(work[96], 0xAA);
    assert_eq!(out, vec![0xAA; 55]);
}

#[test]
fn repair_leaves_the_output_beyond_its_words() {
    let list = bytes_of(&after_setup(&[R, L, C]));
    let mut work = vec![0xAA; 96];
    let mut out = vec![0xAA; 57];
    let outcome = repair(&list, &mut work, &mut out);
    let expected = Repaired {
        words: 7,
        cycles: 50,
    };
    assert_eq!(outcome, Ok(expected));
    assert_eq!(work, vec![0; 96]);
    assert_eq!(out[56], 0xAA);
}

#[test]
fn repair_counts_commands_and_not_words() {
    let mut words = after_setup(&[command(0x0F)]);
    words.resize(3 + 22, 0);
    let list = bytes_of(&words);
    let mut out = vec![0; list.len()];
    assert_eq!(
        repair(&list, &mut [0; 63], &mut out),
        refused(Ground::WorkTooShort, 4)
    );
    assert!(repair(&list, &mut [0; 64], &mut out).is_ok());
    assert_eq!(out, list);
}
