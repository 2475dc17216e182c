//! Request #110: two lists compared.

mod common;

use common::*;
use reference::answer::{Ground, Refusal};
use reference::differences::{compare, rest, Rest};
use reference::fields::fields_of;
use reference::kinds::{base_words, words};
use reference::packed;
use reference::words::bytes_of;

/// The entries, as the two places and the bits.
fn entries(first: &[u64], second: &[u64]) -> Vec<(u32, u32, u64)> {
    let mut numbers = [0; 256];
    let written = compare(&bytes_of(first), &bytes_of(second), &mut numbers);
    let entries = numbers[..written.expect("decodes")].chunks_exact(4);
    let bits = |entry: &[u32]| u64::from(entry[2]) << 32 | u64::from(entry[3]);
    entries
        .map(|entry| (entry[0], entry[1], bits(entry)))
        .collect()
}

/// The rest as the list, 0 or 1, and its first byte.
fn rest_of(first: &[u64], second: &[u64]) -> (usize, usize) {
    let (rest, outcome) = rest(&bytes_of(first), &bytes_of(second), 256);
    assert_eq!(outcome, Ok(()));
    (rest.of_second.into(), rest.first_byte)
}

#[test]
fn equal_lists_have_no_entries() {
    let list = after_setup(&[R, C]);
    assert_eq!(entries(&list, &list), []);
    assert_eq!(rest_of(&list, &list), (0, 40));
    assert_eq!(entries(&[], &[]), []);
    assert_eq!(rest_of(&[], &[]), (0, 0));
}

/// Every bit of every command that stands for itself changed alone.
#[test]
fn each_bit_counts_for_its_field_or_for_none() {
    for number in 0..64 {
        let given = whole(number);
        for bit in 0..64 * words(number) {
            let is_number = (56..62).contains(&bit);
            let mut other = given.clone();
            other[bit / 64] ^= 1 << (bit % 64);
            let expected = expected_line(number, bit);
            let expected: Vec<_> = expected.map(|line| (0, 0, 1 << line)).into_iter().collect();
            if !is_number {
                assert_eq!(entries(&given, &other), expected, "{number:x} {bit}");
            }
        }
    }
}

/// The wiki's line, counted from 0, that has this bit of a command's words.
fn expected_line(number: u8, bit: usize) -> Option<usize> {
    let (word, bit) = (bit / 64, bit as u32 % 64);
    if word >= base_words(number) {
        return Some(21);
    }
    let fields = fields_of(number);
    let has_bit = |at: &usize| {
        fields[*at].word == word && (fields[*at].low..=fields[*at].high).contains(&bit)
    };
    let field = (0..fields.len()).find(has_bit)?;
    let unused = match fields[field].name {
        "atomic_prim" => 0,
        _ if number != 0x2F => 0,
        _ if bit > 35 => 1,
        _ if bit > 15 => 2,
        _ => 3,
    };
    Some(field + unused)
}

#[test]
fn some_lines_by_hand() {
    let modes = command(0x2F);
    let line = |bit: u32| entries(&[modes], &[modes ^ 1 << bit])[0].2;
    assert_eq!(line(55), 1);
    assert_eq!(line(53), 1 << 2);
    assert_eq!(line(52), 1 << 2);
    assert_eq!(line(51), 1 << 3);
    assert_eq!(line(36), 1 << 16);
    assert_eq!(line(31), 1 << 18);
    assert_eq!(line(14), 1 << 27);
    assert_eq!(line(0), 1 << 39);
    for unused in [54, 35, 34, 33, 32, 15, 62, 63] {
        assert_eq!(entries(&[modes], &[modes ^ 1 << unused]), []);
    }
    let all = entries(&[modes], &[modes | 0x00FF_FFFF_FFFF_FFFF]);
    assert_eq!(all, [(0, 0, 0x00FF_FBFD_FFFD)]);
}

#[test]
fn other_numbers_have_no_bits() {
    let list = [N, command(0x37) | 5, N];
    let other = [N, command(0x38) | 7, N];
    assert_eq!(entries(&list, &other), [(1, 1, 0)]);
    // Unassigned numbers are numbers too.
    assert_eq!(entries(&[command(0x01)], &[command(0x02)]), [(0, 0, 0)]);
    assert_eq!(entries(&[N], &[command(0x31)]), [(0, 0, 0)]);
    assert_eq!(entries(&[N], &[0xC0FF << 48]), []);
    // A triangle with a depth is another command.
    assert_eq!(entries(&whole(0x08), &whole(0x09)), [(0, 0, 0)]);
}

/// By index from the first command, each with its own place.
#[test]
fn places_in_both_lists() {
    let first = [&[N][..], &whole(0x24), &[C, C]].concat();
    let second = [&[N, N][..], &[C], &[C ^ 1]].concat();
    assert_eq!(entries(&first, &second), [(1, 1, 0), (4, 3, 1)]);
}

#[test]
fn the_rest_of_the_longer_list() {
    let short = [N, C];
    let long = [&[N, C][..], &whole(0x0F), &[N]].concat();
    assert_eq!(rest_of(&long, &short), (0, 16));
    assert_eq!(rest_of(&short, &long), (1, 16));
    assert_eq!(rest_of(&[], &short), (1, 0));
    // As many commands, though more words.
    assert_eq!(rest_of(&whole(0x0F), &[N]), (0, 176));
    assert_eq!(rest_of(&[N], &whole(0x0F)), (0, 8));
    // The first has more words, the second more commands.
    assert_eq!(rest_of(&whole(0x0F), &short), (1, 8));
}

const END: Rest = Rest {
    of_second: false,
    first_byte: 8,
};

#[test]
fn fourteen_comes_last() {
    let (first, second) = (bytes_of(&[C]), bytes_of(&[C ^ 1, N]));
    let mut numbers = [9; 5];
    let too_few = Refusal::new(Ground::OutputTooShort, 4);
    assert_eq!(compare(&first, &second, &mut numbers[..3]), Err(too_few));
    assert_eq!(numbers, [9; 5]);
    assert_eq!(rest(&first, &second, 3), (END, Err(too_few)));
    assert_eq!(compare(&first, &second, &mut numbers), Ok(4));
    assert_eq!(numbers, [0, 0, 0, 1, 9]);
    assert_eq!(rest(&first, &second, 4).0.first_byte, 8);
    assert!(rest(&first, &second, 4).0.of_second);
    assert_eq!(packed::rest(&first, &second, 3), 14 << 56 | 8);
    assert_eq!(packed::rest(&first, &second, 4), 1 << 32 | 8);
}

/// All of the first list's grounds come before the second's.
#[test]
fn lists_that_do_not_decode() {
    let bad = [
        (vec![0; 32_769], (1, 4_096)),
        (vec![0; 15], (2, 1)),
        (bytes_of(&[N, 0x24 << 56]), (3, 1)),
    ];
    let good = bytes_of(&[C]);
    for (list, expected) in &bad {
        assert_eq!(answer(compare(list, &good, &mut [])), *expected);
        assert_eq!(answer(compare(&good, list, &mut [])), *expected);
        assert_eq!(rest(&good, list, 256).0, END);
        assert_eq!(rest(list, &good, 256).0.first_byte, list.len());
        for (other, _) in &bad {
            assert_eq!(answer(compare(list, other, &mut [])), *expected);
        }
    }
}
