//! The repair against a search among all plans.

mod common;

use common::*;
use reference::answer::Ground;
use reference::comparison::laws::test_repair;
use reference::comparison::rng::Rng;
use reference::repair::{repair_afresh, without_syncs, Repaired};
use reference::words::bytes_of;

const TEXTURED: [u64; 2] = [0x2400_0000_0000_0000, 0];
const SET_TILE: u64 = 0x3500_0000_0000_0000;

/// The kinds of commands that matter to a repair, one of each.
const ALPHABET: [&[u64]; 9] = [
    &[R],
    &TEXTURED,
    &[L],
    &[SET_TILE],
    &[C],
    &[N],
    &[SYNC_LOAD],
    &[SYNC_TILE],
    &[SYNC_PIPE],
];

/// Tests the words written for a list by a search.
fn tested(list: &[u64], written: &[u64], cycles: u32) -> Result<bool, String> {
    let mut rng = Rng::new(1);
    test_repair(&mut rng, &bytes_of(list), &bytes_of(written), cycles)
}

/// Lists of setup S and so many commands.
fn every_list(count: u32) -> impl Iterator<Item = Vec<u64>> {
    (0..9usize.pow(count)).map(move |choice| {
        let pick = |at| ALPHABET[choice / 9usize.pow(at) % 9];
        let picks: Vec<&[u64]> = (0..count).map(pick).collect();
        after_setup(&picks.concat())
    })
}

#[test]
fn every_list_of_setup_and_three_commands() {
    let mut rng = Rng::new(1);
    for list in every_list(3) {
        let (written, cycles) = repaired(&list);
        let outcome = test_repair(&mut rng, &bytes_of(&list), &written, cycles);
        assert_eq!(outcome, Ok(true), "{list:x?}");
    }
}

/// Request #109: the same for what remains without its syncs. Lists with a sync are
/// searched.
#[test]
fn every_list_of_setup_and_four_commands_afresh() {
    let mut rng = Rng::new(1);
    for list in every_list(4) {
        let (written, cycles) = repaired_afresh(&list);
        let remaining = without_syncs(&bytes_of(&list));
        let outcome = test_repair(&mut rng, &remaining, &written, cycles);
        assert!(outcome.is_ok(), "{list:x?} {outcome:?}");
    }
}

/// Syncs go whatever their other bits, and a Sync Full stays.
#[test]
fn syncs_that_nobody_needs_are_dropped() {
    let stray = 0xC0FF_FFFF_FFFF_FFFF;
    let list = after_setup(&[
        SYNC_PIPE | stray,
        R,
        SYNC_TILE | stray,
        SYNC_LOAD,
        SYNC_FULL,
    ]);
    let expected = bytes_of(&after_setup(&[R, SYNC_FULL]));
    assert_eq!(repaired_afresh(&list), (expected, 0));
    let list = after_setup(&[R, SYNC_PIPE | stray, L, SYNC_PIPE | stray, C]);
    let expected = bytes_of(&after_setup(&[R, SYNC_PIPE, L, C]));
    assert_eq!(repaired_afresh(&list), (expected, 50));
    let syncs = [SYNC_LOAD, SYNC_TILE, SYNC_PIPE];
    assert_eq!(repaired_afresh(&syncs), (vec![], 0));
}

/// The first repair keeps the Pipe and adds a Load; afresh the Pipe moves.
#[test]
fn a_sync_that_comes_too_late_moves() {
    let list = after_setup(&[R, L, SYNC_PIPE, C]);
    let expected = bytes_of(&after_setup(&[R, SYNC_LOAD, L, SYNC_PIPE, C]));
    assert_eq!(repaired(&list), (expected, 25));
    let expected = bytes_of(&after_setup(&[R, SYNC_PIPE, L, C]));
    assert_eq!(repaired_afresh(&list), (expected, 50));
}

/// 13 and the cleared bytes go by the commands as given, 14 by what is written.
#[test]
fn the_buffers_of_the_second_repair() {
    let list = bytes_of(&after_setup(&[SYNC_PIPE, R, SYNC_PIPE, SYNC_PIPE, C]));
    let mut work = vec![0xAA; 127];
    let mut out = vec![0xAA; 48];
    let outcome = repair_afresh(&list, &mut work, &mut out);
    assert_eq!(outcome, refused(Ground::WorkTooShort, 8));
    assert_eq!((&work, &out), (&vec![0xAA; 127], &vec![0xAA; 48]));
    let mut work = vec![0xAA; 129];
    let outcome = repair_afresh(&list, &mut work, &mut out[..47]);
    assert_eq!(outcome, refused(Ground::OutputTooShort, 6));
    assert_eq!((&work[..128], work[128]), (&[0; 128][..], 0xAA));
    assert_eq!(out, vec![0xAA; 48]);
    let mut work = vec![0xAA; 129];
    let expected = Repaired {
        words: 6,
        cycles: 50,
    };
    assert_eq!(repair_afresh(&list, &mut work, &mut out), Ok(expected));
    assert_eq!((&work[..128], work[128]), (&[0; 128][..], 0xAA));
}

/// The list as given is judged, also where a dropped sync is at fault.
#[test]
fn the_second_repair_refuses_as_the_first() {
    let afresh = |list: &[u8]| repair_afresh(list, &mut [0; 99], &mut [0; 99]);
    let after_full = bytes_of(&[SYNC_FULL, SYNC_PIPE]);
    assert_eq!(afresh(&after_full), refused(Ground::AfterSyncFull, 1));
    let long = SYNC_PIPE.to_be_bytes().repeat(2_049);
    assert_eq!(afresh(&long), refused(Ground::ListTooLong, 2_048));
    assert_eq!(afresh(&long[..7]), refused(Ground::PartialWord, 0));
}

#[test]
fn search_finds_a_cheaper_plan() {
    let list = after_setup(&[R, L, C]);
    let each_need = after_setup(&[R, SYNC_LOAD, L, SYNC_PIPE, C]);
    let outcome = tested(&list, &each_need, 75);
    assert_eq!(outcome, Err("a plan with fewer cycles passes".to_string()));
}

#[test]
fn search_finds_an_earlier_plan() {
    let list = after_setup(&[R, N, C]);
    let too_early = after_setup(&[R, SYNC_PIPE, N, C]);
    let expected = "another least plan is first in the order of ties";
    assert_eq!(tested(&list, &too_early, 50), Err(expected.to_string()));
}

#[test]
fn a_copy_and_an_invented_total_are_found() {
    let list = after_setup(&[R, C]);
    let expected = "the repaired list does not pass the check";
    assert_eq!(tested(&list, &list, 0), Err(expected.to_string()));
    let written = after_setup(&[R, SYNC_PIPE, C]);
    let expected = "the cycles are not the sum over the added syncs";
    assert_eq!(tested(&list, &written, 49), Err(expected.to_string()));
}

#[test]
fn load_goes_before_pipe() {
    let list = after_setup(&[R, L, C, R]);
    let expected = after_setup(&[R, SYNC_LOAD, L, SYNC_PIPE, C, R]);
    assert_eq!(repaired(&list), (bytes_of(&expected), 75));
}

#[test]
fn load_goes_before_tile() {
    let list = after_setup(&[L, R, SET_TILE, L]);
    let expected = after_setup(&[L, SYNC_LOAD, R, SYNC_TILE, SET_TILE, L]);
    assert_eq!(repaired(&list), (bytes_of(&expected), 58));
}

/// Request #104: a Set Tile waits for a load, and one Tile serves it.
#[test]
fn a_set_tile_after_a_load() {
    for number in [0x30, 0x33, 0x34] {
        let load = command(number);
        let expected = bytes_of(&[load, SYNC_TILE, SET_TILE]);
        assert_eq!(repaired(&[load, SET_TILE]), (expected, 33));
        let with_load = [load, SYNC_LOAD, SYNC_TILE, SET_TILE];
        let list = [load, SYNC_LOAD, SET_TILE];
        assert_eq!(repaired(&list), (bytes_of(&with_load), 33));
    }
}

/// A Tile before the load comes too early for the Set Tile after it.
#[test]
fn a_load_between_a_textured_draw_and_a_set_tile() {
    let [first, second] = TEXTURED;
    let list = after_setup(&[first, second, L, SET_TILE, R]);
    let expected = after_setup(&[first, second, SYNC_LOAD, L, SYNC_TILE, SET_TILE, R]);
    assert_eq!(repaired(&list), (bytes_of(&expected), 58));
}

#[test]
fn a_sync_full_at_the_end_takes_nothing_after_it() {
    let list = after_setup(&[R, SYNC_FULL]);
    assert_eq!(repaired(&list), (bytes_of(&list), 0));
}

#[test]
fn a_long_list_with_many_needs() {
    let mut words = after_setup(&[]);
    let mut expected = words.clone();
    for _ in 0..680 {
        words.extend([R, L, C]);
        expected.extend([R, SYNC_LOAD, L, SYNC_PIPE, C]);
    }
    words.extend([R, L, C]);
    expected.extend([R, SYNC_PIPE, L, C]);
    let (written, cycles) = repaired(&words);
    assert_eq!(cycles, 680 * 75 + 50);
    assert!(written == bytes_of(&expected));
}
