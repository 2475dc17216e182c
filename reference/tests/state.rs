//! The marks, the needs and the register state.

mod common;

use common::*;
use reference::answer::Ground;
use reference::check::{check, CHECK_LIMIT};
use reference::kinds::{kind, Kind, Sync};
use reference::marks::Marks;
use reference::registers::{Registers, TileDescriptor, TileSize};
use reference::words::bytes_of;

const SET_TILE: u64 = 0x3500_0000_0000_0000;
const TEXTURED: [u64; 2] = [0x2400_0000_0000_0000, 0];

fn every_marks() -> impl Iterator<Item = Marks> {
    (0..16).map(|bits| Marks {
        pipe: bits & 8 != 0,
        tile: bits & 4 != 0,
        drawing: bits & 2 != 0,
        loading: bits & 1 != 0,
    })
}

#[test]
fn needs_of_every_state_and_number() {
    for marks in every_marks() {
        for number in 0..64 {
            let expected = match kind(number) {
                Kind::Attribute if marks.pipe => Some(Sync::Pipe),
                Kind::SetTile if marks.tile => Some(Sync::Tile),
                Kind::Load if marks.drawing => Some(Sync::Load),
                Kind::FillRectangle | Kind::Triangle | Kind::TextureRectangle if marks.loading => {
                    Some(Sync::Load)
                }
                _ => None,
            };
            assert_eq!(marks.missing_sync(number), expected);
        }
    }
}

#[test]
fn each_sync_clears_the_marks_that_name_it() {
    let all = every_marks().last().expect("sixteen");
    let idle = Marks::default();
    let pipe = Marks { pipe: true, ..idle };
    assert_eq!(all.after(0x26), Marks { tile: true, ..pipe });
    assert_eq!(all.after(0x28), pipe);
    assert_eq!(all.after(0x27), idle);
    assert_eq!(all.after(0x29), idle);
}

#[test]
fn only_textured_draws_and_loads_mark_the_tile() {
    let marking: Vec<u8> = (0..64)
        .filter(|number| Marks::default().after(*number).tile)
        .collect();
    let textured_draws = [0x0A, 0x0B, 0x0E, 0x0F, 0x24, 0x25];
    let loads = [0x30, 0x33, 0x34];
    assert_eq!(marking, [&textured_draws[..], &loads].concat());
}

#[test]
fn sync_grounds() {
    assert_eq!(checked(&after_setup(&[R, L])), (7, 4));
    assert_eq!(checked(&after_setup(&[L, R])), (7, 4));
    let [first, second] = TEXTURED;
    assert_eq!(checked(&after_setup(&[first, second, SET_TILE])), (8, 5));
    assert_eq!(checked(&after_setup(&[R, SET_TILE])), (0, 5));
    assert_eq!(checked(&after_setup(&[L, SET_TILE, R])), (8, 4));
    for sync in [SYNC_LOAD, SYNC_TILE, SYNC_PIPE] {
        assert_eq!(checked(&after_setup(&[L, sync, R])), (0, 6));
        assert_eq!(checked(&after_setup(&[R, sync, L])), (0, 6));
    }
    for number in [0x2D, 0x2E, 0x32, 0x3A, 0x3D] {
        assert_eq!(checked(&after_setup(&[R, command(number)])), (0, 5));
    }
}

#[test]
fn two_short_syncs_do_not_make_a_long_one() {
    let list = after_setup(&[R, SYNC_TILE, SYNC_TILE, SYNC_LOAD, C]);
    assert_eq!(checked(&list), (9, 7));
}

#[test]
fn order_of_the_grounds_at_one_command() {
    assert_eq!(checked(&[SYNC_FULL, command(0x24)]), (3, 1));
    assert_eq!(checked(&[SYNC_FULL, R]), (4, 1));
    let four_bits = 0x3F00_0007_0000_0000;
    assert_eq!(checked(&[MODES, four_bits, R]), (5, 2));
    assert_eq!(checked(&[MODES, four_bits, SCISSOR, L, R]), (6, 4));
    assert_eq!(checked(&[command(0x2F), four_bits, SCISSOR, R]), (0, 4));
}

/// Request #107: "19, unassigned number, at its place, after 4 and before 5".
#[test]
fn unassigned_numbers() {
    let unassigned = (0x01..0x08).chain(0x10..0x24).chain([0x31]);
    let numbers: Vec<u8> = unassigned.collect();
    assert_eq!(numbers.len(), 28);
    for number in 0..64 {
        let list = [N, command(number) | 3 << 62, N];
        let refused = checked(&list) == (19, 1);
        assert_eq!(refused, numbers.contains(&number), "{number:#04x}");
    }
    assert_eq!(checked(&[SYNC_FULL, command(0x31)]), (4, 1));
    assert_eq!(checked(&[command(0x31), R]), (19, 0));
    assert_eq!(checked(&after_setup(&[R, command(0x10), C])), (19, 4));
    assert_eq!(checked(&after_setup(&[R, C, command(0x10)])), (9, 4));
    assert_eq!(caused(&[N, command(0x05), N]), (19, 1, 3));
}

#[test]
fn the_state_at_an_unassigned_number() {
    let checked = check(&bytes_of(&after_setup(&[R, command(0x23), L])));
    assert_eq!(checked.outcome, refused(Ground::UnassignedNumber, 4));
    assert!(checked.marks.drawing && !checked.marks.loading);
    assert_eq!(checked.registers.tiles[0].size, None);
    for marks in every_marks() {
        for number in [0x01, 0x07, 0x10, 0x23, 0x31] {
            assert_eq!(marks.after(number), marks);
            assert_eq!(marks.missing_sync(number), None);
        }
    }
}

#[test]
fn ignored_bits_of_the_number() {
    let list: Vec<u64> = after_setup(&[R, SYNC_PIPE, C])
        .iter()
        .map(|word| word | 0xC000_0000_0000_0000)
        .collect();
    assert_eq!(checked(&list), (0, 6));
}

#[test]
fn state_at_a_refusal_is_that_before_it() {
    let checked = check(&bytes_of(&after_setup(&[R, C])));
    assert_eq!(checked.outcome, refused(Ground::SyncPipeMissing, 4));
    assert!(checked.marks.pipe && checked.marks.drawing);
    assert!(!checked.registers.is_set(0x37));
    assert_eq!(checked.registers.fields(0x3F), [0, 2, 7, 0]);
}

#[test]
fn state_at_1_and_2_is_the_starting_one() {
    let list = bytes_of(&S);
    for bytes in [&list[..20], &vec![0x2F; CHECK_LIMIT + 1]] {
        let checked = check(bytes);
        assert_eq!(checked.marks, Marks::default());
        assert_eq!(checked.registers, Registers::default());
    }
}

#[test]
fn registers_start_at_zero() {
    let start = Registers::default();
    assert_eq!(start.fields(0x3F), [0, 0, 0, 0]);
    assert_eq!(start.tiles, [TileDescriptor::default(); 8]);
    assert_eq!(start.fill_color(), 0);
}

#[test]
fn loads_set_the_size_of_their_tile() {
    let size = TileSize {
        upper_left_s: 0x123,
        upper_left_t: 0x456,
        lower_right_s: 0x789,
        lower_right_t: 0xABC,
    };
    for number in [0x30, 0x32, 0x33, 0x34] {
        let word = command(number) | 0x0012_3456_0578_9ABC;
        let tiles = check(&bytes_of(&[word])).registers.tiles;
        assert_eq!(tiles[5].size, Some(size));
        assert_eq!(tiles[5].descriptor, None);
        assert_eq!(tiles.iter().filter(|tile| tile.size.is_some()).count(), 1);
    }
    let tiles = check(&bytes_of(&[SET_TILE | 3 << 24])).registers.tiles;
    assert_eq!(tiles[3].descriptor, Some(SET_TILE | 3 << 24));
    assert_eq!(tiles[3].size, None);
}

#[test]
fn fill_color_not_set_is_zero() {
    let (answer, memory) = drawn(&after_setup(&[R]), 64);
    assert_eq!((answer, memory), ((0, 4), vec![0; 64]));
}

#[test]
fn interlaced_scissor_keeps_odd_or_even_rows() {
    for odd in 0..2 {
        let scissor = SCISSOR | 1 << 25 | odd << 24;
        let (answer, memory) = drawn(&[MODES, IMAGE, scissor, C, R], 64);
        assert_eq!(answer, (0, 5));
        assert_eq!(memory[18] != memory[19], odd == 1);
        assert_eq!(memory[34] != memory[35], odd == 0);
    }
}
