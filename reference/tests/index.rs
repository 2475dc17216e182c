//! Request #111: the marks before one command, asked of entries along the list.

mod common;

use common::*;
use reference::comparison::indices::Index;
use reference::comparison::rng::Rng;
use reference::index::{ask, build, entries_of, replace};
use reference::kinds::{commands, words};
use reference::marks::Marks;
use reference::packed::{self, Answer};
use reference::words::bytes_of;

const TILE: u64 = 0x3500_0000_0000_0000;

/// The entries of a list, as building writes them.
fn built(list: &[u8]) -> Vec<u32> {
    let mut entries = vec![0; 1_024];
    let count = build(list, &mut entries).expect("decodes");
    entries.truncate(2 * count);
    entries
}

/// A question's number, place, marks and commands read.
fn asked(list: &[u8], entries: &[u32], place: u32) -> (u8, u32, u32, u32) {
    let answer = Answer::unpack(packed::index_ask(list, entries, place));
    (
        answer.number,
        answer.place,
        answer.third % 16,
        answer.third / 16,
    )
}

/// A list of 64 no operations, a draw, a load, 62 no operations and a Set Tile.
fn long() -> Vec<u64> {
    [vec![N; 64], vec![R, L], vec![N; 62], vec![TILE]].concat()
}

#[test]
fn an_entry_at_every_64th_command() {
    assert_eq!(built(&[]), []);
    assert_eq!(built(&bytes_of(&[R])), [0, 0]);
    assert_eq!(built(&bytes_of(&[N; 64])), [0, 0]);
    assert_eq!(built(&bytes_of(&[N; 65])), [0, 0, 64, 0]);
    assert_eq!(built(&bytes_of(&long())), [0, 0, 64, 0, 128, 15]);
    // Places are in words, and a command counts once.
    let wide = whole(0x0E).repeat(65);
    assert_eq!(built(&bytes_of(&wide)), [0, 0, 64 * 20, 7]);
}

#[test]
fn building_refuses_1_to_3_then_14() {
    let needed = |list: &[u8], room: usize| answer(build(list, &mut vec![0; room]));
    let list = bytes_of(&long());
    assert_eq!(needed(&list, 5), (14, 3));
    assert_eq!(needed(&list, 6), (0, 3));
    assert_eq!(needed(&list, 0), (14, 3));
    assert_eq!(needed(&[], 0), (0, 0));
    assert_eq!(needed(&[0; 32_769], 0), (1, 4_096));
    assert_eq!(needed(&list[..12], 0), (2, 1));
    let cut = bytes_of(&[N, 0x24 << 56]);
    assert_eq!(needed(&cut, 0), (3, 1));
}

#[test]
fn every_question_about_a_list() {
    let list = bytes_of(&long());
    let entries = built(&list);
    let mut marks = Marks::default();
    for (index, command) in commands(&list).enumerate() {
        let read = index as u32 % 64 + 1;
        let place = command.place as u32;
        assert_eq!(asked(&list, &entries, place), (0, place, marks.sum(), read));
        marks = marks.after(command.number());
    }
}

/// Which entry a question starts at, where entries are foreign.
#[test]
fn the_last_entry_that_is_not_beyond() {
    let list = bytes_of(&[N; 200]);
    // By their order and not by their places.
    assert_eq!(asked(&list, &[10, 1, 5, 2, 30, 4], 12), (0, 12, 2, 8));
    assert_eq!(asked(&list, &[5, 2, 10, 1, 30, 4], 12), (0, 12, 1, 3));
    assert_eq!(asked(&list, &[13, 0, 12, 9], 12), (0, 12, 9, 1));
    assert_eq!(asked(&list, &[13, 0], 12), (26, 12, 0, 0));
    assert_eq!(asked(&list, &[], 12), (26, 12, 0, 0));
    // Half an entry is none.
    assert_eq!(asked(&list, &[12], 12), (26, 12, 0, 0));
    assert_eq!(asked(&list, &[12, 3, 12], 12), (0, 12, 3, 1));
    // Only the marks of that entry are looked at.
    assert_eq!(asked(&list, &[0, 16], 12), (26, 12, 0, 0));
    assert_eq!(asked(&list, &[0, u32::MAX, 12, 15], 12), (0, 12, 15, 1));
    assert_eq!(asked(&list, &[12, 15, 0, 16, 13, 0], 12), (26, 12, 0, 0));
}

#[test]
fn a_question_reads_at_most_64_commands() {
    let list = bytes_of(&[N; 200]);
    assert_eq!(asked(&list, &[7, 0], 70), (0, 70, 0, 64));
    assert_eq!(asked(&list, &[7, 0], 71), (24, 71, 0, 0));
    assert_eq!(asked(&list, &[7, 0], 200), (24, 200, 0, 0));
    assert_eq!(asked(&list, &[200, 0], 200), (24, 200, 0, 0));
    let far = u32::MAX;
    assert_eq!(asked(&list, &[far, 0], far), (24, far, 0, 0));
    // Inside a command.
    let wide = bytes_of(&[whole(0x08), vec![N]].concat());
    assert_eq!(asked(&wide, &[0, 0], 2), (24, 2, 0, 0));
    assert_eq!(asked(&wide, &[0, 0], 4), (0, 4, 5, 2));
}

#[test]
fn a_question_about_a_list_that_does_not_decode() {
    let cut = bytes_of(&[N, N, 0x24 << 56]);
    assert_eq!(asked(&cut, &[0, 0], 1), (0, 1, 0, 2));
    assert_eq!(asked(&cut, &[0, 0], 2), (3, 2, 0, 0));
    assert_eq!(asked(&cut, &[0, 0], 9), (3, 9, 0, 0));
    assert_eq!(asked(&cut, &[0, 16], 2), (26, 2, 0, 0));
    assert_eq!(asked(&cut[..23], &[], 9), (2, 2, 0, 0));
    assert_eq!(asked(&[0; 32_776], &[], 9), (1, 4_096, 0, 0));
}

#[test]
fn an_empty_list_has_no_entry() {
    assert_eq!(asked(&[], &[], 0), (26, 0, 0, 0));
    assert_eq!(asked(&[], &[0, 0], 0), (24, 0, 0, 0));
}

/// A replacement's number and place; at a refusal all that is lent stays.
fn replaced(list: &mut [u8], entries: &mut [u32], place: u32, new: &[u8]) -> (u8, u32) {
    let before = (list.to_vec(), entries.to_vec());
    let answer = Answer::unpack(packed::index_replace(list, entries, place, new));
    assert_eq!(answer.third, 0);
    if answer.number != 0 {
        assert!((list.to_vec(), entries.to_vec()) == before);
    }
    (answer.number, answer.place)
}

#[test]
fn a_replacement_renews_the_later_entries() {
    let mut list = bytes_of(&long());
    let mut entries = built(&list);
    let pipe = (SYNC_PIPE | 0xC0 << 56 | 5).to_be_bytes();
    // Bytes beyond the new command are not read.
    let with_more = [&pipe[..], &[0xFF; 9]].concat();
    assert_eq!(replaced(&mut list, &mut entries, 65, &with_more), (0, 65));
    assert_eq!(list[8 * 65..8 * 66], pipe);
    assert_eq!(list[8 * 66..8 * 67], [0; 8]);
    assert_eq!(entries, [0, 0, 64, 0, 128, 0]);
    let load = L.to_be_bytes();
    assert_eq!(replaced(&mut list, &mut entries, 64, &load), (0, 64));
    assert_eq!(entries, [0, 0, 64, 0, 128, 0]);
    assert_eq!(replaced(&mut list, &mut entries, 127, &load), (0, 127));
    assert_eq!(entries, [0, 0, 64, 0, 128, 10]);
    assert_eq!(replaced(&mut list, &mut entries, 128, &pipe), (0, 128));
    assert_eq!(entries, [0, 0, 64, 0, 128, 10]);
    assert_eq!(entries, built(&list));
}

/// Entries up to the command stay, whatever they hold; later ones are built from nothing.
#[test]
fn a_replacement_with_foreign_entries() {
    let mut list = bytes_of(&[N; 130]);
    let mut entries = [60, 3, 9, 9, 500, 77, 1];
    let load = L.to_be_bytes();
    assert_eq!(replaced(&mut list, &mut entries, 70, &load), (0, 70));
    assert_eq!(entries, [60, 3, 9, 9, 128, 10, 1]);
}

#[test]
fn replacements_that_are_refused() {
    let mut list = bytes_of(&[vec![N, N], whole(0x24), vec![N; 70]].concat());
    let mut entries = built(&list);
    let list = &mut list[..];
    let one = N.to_be_bytes();
    let two = bytes_of(&whole(0x24));
    assert_eq!(replaced(list, &mut entries, 2, &two), (0, 2));
    assert_eq!(replaced(list, &mut entries, 2, &one), (25, 2));
    assert_eq!(replaced(list, &mut entries, 1, &two), (25, 1));
    assert_eq!(replaced(list, &mut entries, 2, &two[..15]), (3, 2));
    assert_eq!(replaced(list, &mut entries, 1, &two[..15]), (3, 1));
    assert_eq!(replaced(list, &mut entries, 1, &[]), (3, 1));
    assert_eq!(replaced(list, &mut entries, 3, &[]), (24, 3));
    assert_eq!(replaced(list, &mut entries, 74, &[]), (24, 74));
    assert_eq!(replaced(list, &mut entries[..3], 3, &[]), (14, 2));
    assert_eq!(replaced(list, &mut [0, 16, 65, 0], 3, &[]), (26, 3));
    assert_eq!(replaced(&mut [], &mut [], 3, &[]), (26, 3));
    // Building's 3 stands at the cut command, and comes before 14.
    assert_eq!(replaced(&mut list[..24], &mut [], 0, &[]), (3, 2));
    assert_eq!(replaced(&mut list[..23], &mut [], 0, &[]), (2, 2));
    assert_eq!(replaced(&mut [0; 32_776], &mut [], 0, &[]), (1, 4_096));
}

/// An entry inside a suffix finds a command there, which may run past the list.
#[test]
fn a_question_inside_a_suffix() {
    let mut triangle = whole(0x09);
    triangle[4] = C;
    triangle[5] = 0x24 << 56;
    let mut list = bytes_of(&triangle);
    let mut entries = [4, 1];
    assert_eq!(asked(&list, &entries, 4), (0, 4, 1, 1));
    assert_eq!(asked(&list, &entries, 5), (3, 5, 0, 0));
    let two = [0; 8];
    assert_eq!(replaced(&mut list, &mut entries, 5, &two), (3, 5));
    assert_eq!(replaced(&mut list, &mut entries, 4, &two), (24, 4));
    assert_eq!(entries, [4, 1]);
}

/// Of the comparison's lists many have a later entry, and replacing changes its marks.
#[test]
fn the_comparison_renews_entries() {
    let mut rng = Rng::new(17);
    let (mut renewed, mut foreign) = (0, 0);
    for _ in 0..2_000 {
        let mut index = Index::random(&mut rng, &[]);
        let new = index.replacement(&mut rng);
        let before = index.entries.clone();
        let is_built = before == entries_of(&index.list).as_flattened();
        let Index {
            list,
            entries,
            place,
        } = &mut index;
        let outcome = replace(list, entries, *place, &new);
        let changed = outcome.is_ok() && before != *entries;
        renewed += u32::from(changed && is_built);
        foreign += u32::from(outcome.is_ok() && !is_built);
    }
    assert!(renewed > 50, "{renewed}");
    assert!(foreign > 50, "{foreign}");
}

/// For entries built from the list a question gives the marks of the full walk.
#[test]
fn questions_agree_with_the_full_walk() {
    let mut rng = Rng::new(18);
    for _ in 0..200 {
        let list = Index::random(&mut rng, &[]).list;
        let entries = entries_of(&list);
        let mut marks = Marks::default();
        let end = list.len() / 8;
        for command in commands(&list).filter(|c| c.place + words(c.number()) <= end) {
            let answer = ask(&list, entries.as_flattened(), command.place as u32);
            if list.len().is_multiple_of(8) {
                assert_eq!(answer.expect("is read").marks, marks);
            }
            marks = marks.after(command.number());
        }
    }
}
