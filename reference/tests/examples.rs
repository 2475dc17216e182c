//! 01, "Examples", A to O.

mod common;

use common::*;
use reference::words::bytes_of;

#[test]
fn a_empty() {
    assert_eq!(caused(&[]), (0, 0, 0));
}

#[test]
fn b_seven_bytes() {
    assert_eq!(caused_bytes(&[0; 7]), (2, 0, 0));
}

#[test]
fn c1_one_word_of_a_texture_rectangle() {
    assert_eq!(caused(&[command(0x24)]), (3, 0, 1));
}

#[test]
fn d_triangle_one_word_short() {
    assert_eq!(caused(&whole(0x0F)[..21]), (3, 0, 21));
}

#[test]
fn e_whole_triangle_without_setup() {
    assert_eq!(caused(&whole(0x0F)), (5, 0, 22));
}

#[test]
fn f_no_operation_after_sync_full() {
    assert_eq!(caused(&[SYNC_FULL, N]), (4, 1, 2));
}

#[test]
fn g_fill_color_after_a_draw() {
    assert_eq!(caused(&after_setup(&[R, C])), (9, 4, 3));
}

#[test]
fn h_only_sync_pipe_serves_a_fill_color() {
    assert_eq!(caused(&after_setup(&[R, SYNC_TILE, C])), (9, 5, 3));
    assert_eq!(caused(&after_setup(&[R, SYNC_PIPE, C])), (0, 6, 6));
}

#[test]
fn i_fill_of_two_by_two_pixels() {
    let (answer, memory) = drawn(&after_setup(&[C, R]), 64);
    let mut expected = vec![0; 64];
    expected[18..22].copy_from_slice(&[0x00, 0x3F, 0xF8, 0x01]);
    expected[34..38].copy_from_slice(&[0x00, 0x3F, 0xF8, 0x01]);
    assert_eq!(answer, (0, 5));
    assert_eq!(memory, expected);
    assert_eq!(caused(&after_setup(&[C, R])), (0, 5, 5));
}

#[test]
fn j_one_pipe_serves_two_needs() {
    let expected = bytes_of(&after_setup(&[R, SYNC_PIPE, L, C]));
    assert_eq!(repaired(&after_setup(&[R, L, C])), (expected, 50));
    assert_eq!(caused(&after_setup(&[R, L, C])), (7, 4, 3));
}

#[test]
fn k_two_loads() {
    let expected = bytes_of(&after_setup(&[R, SYNC_LOAD, L, SYNC_LOAD, R]));
    assert_eq!(repaired(&after_setup(&[R, L, R])), (expected, 50));
    assert_eq!(caused(&after_setup(&[R, L, R])), (7, 4, 3));
}

#[test]
fn m_nothing_goes_before_pipe() {
    let expected = bytes_of(&after_setup(&[R, N, SYNC_PIPE, C]));
    assert_eq!(repaired(&after_setup(&[R, N, C])), (expected, 50));
    assert_eq!(caused(&after_setup(&[R, N, C])), (9, 5, 3));
}

#[test]
fn o_the_address_chooses_the_half() {
    let width_7 = 0x3F10_0006_0000_0000;
    let pixel_0_1 = 0x3600_0004_0000_0004;
    let list = [MODES, width_7, SCISSOR, C, pixel_0_1];
    let (answer, memory) = drawn(&list, 16);
    let mut expected = vec![0; 16];
    expected[14..].copy_from_slice(&[0x00, 0x3F]);
    assert_eq!(caused(&list), (0, 5, 5));
    assert_eq!(answer, (0, 5));
    assert_eq!(memory, expected);
}
