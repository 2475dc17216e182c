//! Request #101: the command that caused a missing sync.

mod common;

use common::*;

const SET_TILE: u64 = 0x35 << 56;

/// Modes of one cycle, image and scissor: textured draws are at home there.
fn one_cycle(commands: &[Vec<u64>]) -> Vec<u64> {
    let setup = [command(0x2F), IMAGE, SCISSOR];
    setup
        .into_iter()
        .chain(commands.iter().flatten().copied())
        .collect()
}

#[test]
fn a_draw_waits_for_the_latest_load() {
    let list = after_setup(&[L, command(0x30), N, R]);
    assert_eq!(caused(&list), (7, 6, 4));
    let list = after_setup(&[L, command(0x33), SYNC_LOAD, L, R]);
    assert_eq!(caused(&list), (7, 7, 6));
}

#[test]
fn a_load_waits_for_the_latest_draw() {
    assert_eq!(caused(&after_setup(&[R, R, N, L])), (7, 6, 4));
    let list = one_cycle(&[vec![R], whole(0x24), vec![L]]);
    assert_eq!(caused(&list), (7, 6, 4));
}

#[test]
fn a_load_before_the_draw_is_not_what_a_load_waits_for() {
    let list = after_setup(&[L, SYNC_LOAD, R, C, L]);
    assert_eq!(caused(&list), (9, 6, 5));
    assert_eq!(caused(&after_setup(&[L, SYNC_LOAD, R, L])), (7, 6, 5));
}

#[test]
fn a_set_tile_waits_for_a_textured_draw_though_another_draw_came_later() {
    for textured in [0x0A, 0x0B, 0x0E, 0x0F, 0x24, 0x25] {
        let place = 3 + whole(textured).len();
        for untextured in [0x36, 0x08, 0x09, 0x0C, 0x0D] {
            let set_tile = place + whole(untextured).len();
            let list = one_cycle(&[whole(textured), whole(untextured), vec![SET_TILE]]);
            assert_eq!(caused(&list), (8, set_tile, 3));
            let list = one_cycle(&[whole(textured), whole(untextured), vec![C]]);
            assert_eq!(caused(&list), (9, set_tile, place));
        }
    }
}

#[test]
fn the_latest_textured_draw() {
    let list = one_cycle(&[whole(0x24), whole(0x0F), vec![R, N, SET_TILE]]);
    assert_eq!(caused(&list), (8, 29, 5));
}

#[test]
fn a_sync_that_does_not_serve_stands_between() {
    let list = one_cycle(&[whole(0x25), vec![SYNC_LOAD, SET_TILE]]);
    assert_eq!(caused(&list), (8, 6, 3));
    assert_eq!(caused(&after_setup(&[R, SYNC_LOAD, N, C])), (9, 6, 3));
    let list = after_setup(&[R, SYNC_PIPE, R, SYNC_TILE, SYNC_LOAD, C]);
    assert_eq!(caused(&list), (9, 8, 5));
}

/// Request #104: T means "a textured draw or a load".
#[test]
fn a_set_tile_waits_for_a_load() {
    let block = command(0x33);
    assert_eq!(caused(&[block, SET_TILE]), (8, 1, 0));
    assert_eq!(caused(&[block, SYNC_LOAD, SET_TILE]), (8, 2, 0));
    for sync in [SYNC_TILE, SYNC_PIPE] {
        assert_eq!(caused(&[block, sync, SET_TILE]), (0, 3, 3));
    }
    assert_eq!(caused(&[L, command(0x30), N, SET_TILE]), (8, 3, 1));
    assert_eq!(caused(&[L, SYNC_TILE, block, SET_TILE, L]), (8, 3, 2));
}

/// "The latest draw, textured draw or load that set the mark."
#[test]
fn a_set_tile_waits_for_the_later_of_textured_draw_and_load() {
    let list = one_cycle(&[whole(0x24), vec![SYNC_LOAD, L, SET_TILE]]);
    assert_eq!(caused(&list), (8, 7, 6));
    let list = one_cycle(&[vec![L, SYNC_LOAD], whole(0x0A), vec![R, SET_TILE]]);
    assert_eq!(caused(&list), (8, 18, 5));
    let list = one_cycle(&[vec![L, SYNC_LOAD, R, N, SET_TILE]]);
    assert_eq!(caused(&list), (8, 7, 3));
}

/// The words after a triangle's first one are no commands, whatever they hold.
#[test]
fn words_inside_a_triangle_cause_nothing() {
    let mut triangle = whole(0x0F);
    triangle[1..].fill(R);
    let list = one_cycle(&[triangle.clone(), vec![C]]);
    assert_eq!(caused(&list), (9, 25, 3));
    triangle[1..].fill(L);
    let list = one_cycle(&[vec![L, SYNC_LOAD], triangle, vec![L]]);
    assert_eq!(caused(&list), (7, 27, 5));
}

#[test]
fn far_apart() {
    let mut words = after_setup(&[R, R]);
    words.resize(4_095, N);
    words.push(C);
    assert_eq!(caused(&words), (9, 4_095, 4));
}

/// What follows the refused command doesn't count.
#[test]
fn the_words_after_a_refusal() {
    assert_eq!(caused(&after_setup(&[R, C, R, R, N])), (9, 4, 3));
    assert_eq!(caused(&after_setup(&[SYNC_FULL, R, N])), (4, 4, 6));
    assert_eq!(caused(&[R, N, N]), (5, 0, 3));
    assert_eq!(caused(&[MODES, command(0x3F), SCISSOR, R, N]), (6, 3, 5));
}
