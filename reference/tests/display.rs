//! Request #108: display lists of Fast3DEX2 become an RDP list.

use reference::comparison::displays::display;
use reference::comparison::rng::Rng;
use reference::display::{translate, walk, MOST_CALLS};
use reference::words::bytes_of;

const END: u64 = 0xDF00_0000_0000_0000;
const PIPE: u64 = 0xE700_0000_0000_0000;
const RECTANGLE: u64 = 0xE412_3456_0712_3456;
const FIRST_HALF: u64 = 0xE100_0000_1111_2222;
const SECOND_HALF: u64 = 0xF1FF_FFFF_3333_4444;

fn call(offset: u64) -> u64 {
    0xDE00_0000_0000_0000 | offset
}

fn for_good(offset: u64) -> u64 {
    0xDE01_0000_0000_0000 | offset
}

/// The words written from offset 0 on, and the commands read.
fn written(memory: &[u64]) -> (Vec<u64>, usize) {
    let memory = bytes_of(memory);
    let walk = walk(&memory, 0);
    assert_eq!(walk.outcome, Ok(()));
    (walk.words, walk.read)
}

/// A refusal's number, place and commands read. Nothing is written.
fn refused_at(memory: &[u8], start: u32) -> (u8, usize, usize) {
    let mut out = vec![0xAA; 64];
    let translated = translate(memory, start, &mut out);
    assert_eq!(out, vec![0xAA; 64]);
    let refusal = translated.outcome.expect_err("is refused");
    (refusal.ground as u8, refusal.place, translated.read)
}

fn refused(memory: &[u64]) -> (u8, usize, usize) {
    refused_at(&bytes_of(memory), 0)
}

#[test]
fn plain_commands_lose_their_top_bits() {
    for number in (0xE6..=0xFF).filter(|number| *number != 0xF1) {
        let word = number << 56 | 0x12_3456_0078_9ABC;
        let expected = (number & 0x3F) << 56 | 0x12_3456_0078_9ABC;
        assert_eq!(written(&[word, END]), (vec![expected], 2));
    }
}

#[test]
fn numbers_that_are_not_named() {
    for number in (0..=0xDD).chain([0xE0, 0xE1, 0xF1]) {
        assert_eq!(refused(&[PIPE, number << 56, END]), (22, 8, 1));
    }
}

#[test]
fn a_rectangle_takes_its_half_words() {
    let list = [RECTANGLE, FIRST_HALF, SECOND_HALF, END];
    let expected = vec![0x2412_3456_0712_3456, 0x1111_2222_3333_4444];
    assert_eq!(written(&list), (expected, 4));
    let flipped = [RECTANGLE | 1 << 56, FIRST_HALF, SECOND_HALF, END];
    assert_eq!(written(&flipped).0[0], 0x2512_3456_0712_3456);
}

/// The rectangle counts as read, the refused half-word does not.
#[test]
fn half_words_are_judged_where_they_stand() {
    assert_eq!(refused(&[RECTANGLE, SECOND_HALF, FIRST_HALF]), (22, 8, 1));
    assert_eq!(refused(&[RECTANGLE, END]), (22, 8, 1));
    assert_eq!(refused(&[RECTANGLE, FIRST_HALF, FIRST_HALF]), (22, 16, 2));
    assert_eq!(refused(&[RECTANGLE, FIRST_HALF, END]), (22, 16, 2));
    assert_eq!(refused(&[RECTANGLE]), (20, 8, 1));
    assert_eq!(refused(&[RECTANGLE, FIRST_HALF]), (20, 16, 2));
    assert_eq!(refused(&[FIRST_HALF, SECOND_HALF, END]), (22, 0, 0));
}

/// Cycle type FILL, bits 53:52: shift 20 in the high word, two bits.
#[test]
fn the_other_modes_are_kept_and_written_whole() {
    let fill = 0xE300_0A01_0030_0000;
    let low = 0xE200_1C02_0000_0005;
    let cleared = 0xE300_0A01_0000_0000;
    let expected = vec![
        0x2F30_0000_0000_0000,
        0x2F30_0000_0000_0005,
        0x2F00_0000_0000_0005,
    ];
    assert_eq!(written(&[fill, low, cleared, END]), (expected, 4));
    let all = 0xEFFF_FFFF_FFFF_FFFF;
    let expected = vec![
        0x2FFF_FFFF_FFFF_FFFF,
        0x2FCF_FFFF_FFFF_FFFF,
        0x2FCF_FFFF_FFFF_FFF5,
    ];
    let low = 0xE200_1C03_0000_0005;
    assert_eq!(written(&[all, cleared, low, END]), (expected, 4));
}

/// The data are or-ed as they are: 003's formula has no mask there.
#[test]
fn data_beyond_the_bits_are_set_too() {
    let beyond = 0xE200_1F00_8000_0002;
    assert_eq!(written(&[beyond, END]).0, vec![0x2F00_0000_8000_0002]);
    let command_byte = 0xE300_0007_FF00_0001;
    assert_eq!(written(&[command_byte, END]).0, vec![0x2F00_0001_0000_0000]);
}

#[test]
fn every_shift_and_count() {
    for shift in 0..256 {
        for count in 0..256 {
            let change = 0xE200_0000_0000_0000 | shift << 40 | count << 32;
            let list = [0xEF00_0000_FFFF_FFFF, change, END];
            if shift + count + 1 > 32 {
                assert_eq!(refused(&list), (23, 8, 1));
            } else {
                let ones = (1 << (count + 1)) - 1;
                let cleared = ones << (32 - shift - count - 1);
                let expected = 0x2F00_0000_FFFF_FFFF & !cleared;
                assert_eq!(written(&list).0[1], expected);
            }
        }
    }
}

#[test]
fn calls_return_and_going_for_good_does_not() {
    let list = [
        call(24),
        PIPE,
        END,
        0xE8 << 56,
        for_good(48),
        0,
        0xE6 << 56,
        END,
    ];
    let expected = vec![0x28 << 56, 0x26 << 56, 0x27 << 56];
    assert_eq!(written(&list), (expected, 7));
}

type Going = fn(u64) -> u64;

/// Each list calls the next one, or goes there for good.
fn chain(goings: &[Going]) -> Vec<u64> {
    let mut memory = Vec::new();
    for (list, going) in goings.iter().enumerate() {
        memory.extend([going(16 * (list as u64 + 1)), END]);
    }
    memory.push(END);
    memory
}

#[test]
fn a_ninth_call_deep() {
    let eight: [Going; MOST_CALLS] = [call; MOST_CALLS];
    assert_eq!(written(&chain(&eight)), (vec![], 17));
    let nine: [Going; 9] = [call; 9];
    assert_eq!(refused(&chain(&nine)), (23, 128, 8));
    let goings: [Going; 9] = [for_good; 9];
    let with_goings = [&eight[..], &goings].concat();
    assert_eq!(written(&chain(&with_goings)).1, 26);
    // The call is refused before its target, which lies outside.
    let mut memory = chain(&eight);
    memory[16] = call(0xFF_FFF8);
    assert_eq!(refused(&memory), (23, 128, 8));
    memory[16] = for_good(0xFF_FFF8);
    assert_eq!(refused(&memory), (20, 0xFF_FFF8, 9));
}

/// Two calls one after the other are one deep each.
#[test]
fn returning_gives_a_call_back() {
    let mut memory = vec![call(160); 19];
    memory.push(END);
    memory.push(END);
    assert_eq!(written(&memory), (vec![], 39));
}

#[test]
fn parameters_and_addresses() {
    for parameter in 2..256 {
        assert_eq!(refused(&[0xDE << 56 | parameter << 48]), (23, 0, 0));
    }
    for going in [call, for_good] {
        assert_eq!(refused(&[going(1 << 24)]), (23, 0, 0));
        assert_eq!(refused(&[going(0x0100_0001)]), (23, 0, 0));
        assert_eq!(refused(&[going(4)]), (20, 4, 1));
        assert_eq!(refused(&[going(8)]), (20, 8, 1));
    }
    for number in 0xFD..=0xFF {
        let image = number << 56 | 0xFF_FFFF;
        assert!(refused(&[image | 1 << 24, END]) == (23, 0, 0));
        assert_eq!(written(&[image, END]).1, 2);
    }
    let other = 0xFC00_0000_FF00_0000;
    assert_eq!(written(&[other, END]).1, 2);
}

#[test]
fn offsets_outside() {
    let memory = bytes_of(&[PIPE, END]);
    assert_eq!(refused_at(&memory, 4), (20, 4, 0));
    assert_eq!(refused_at(&memory, 16), (20, 16, 0));
    assert_eq!(refused_at(&memory, u32::MAX), (20, u32::MAX as usize, 0));
    assert_eq!(refused_at(&memory[..15], 0), (20, 8, 1));
    assert_eq!(refused_at(&[], 0), (20, 0, 0));
}

/// Of 4 GiB the last word does not count as lent.
#[test]
fn memory_of_four_gigabytes() {
    let memory = vec![0; 1 << 32];
    assert_eq!(refused_at(&memory, 0xFFFF_FFF8), (20, 0xFFFF_FFF8, 0));
    assert_eq!(refused_at(&memory, 0xFFFF_FFF0), (22, 0xFFFF_FFF0, 0));
}

#[test]
fn at_most_4096_commands_are_read() {
    let mut memory = vec![PIPE; 4_095];
    memory.push(END);
    let (words, read) = written(&memory);
    assert_eq!((words.len(), read), (4_095, 4_096));
    memory.insert(0, PIPE);
    assert_eq!(refused(&memory), (21, 8 * 4_096, 4_096));
    // 21 comes before 22 and 23, and after 20.
    memory[4_096] = 0;
    assert_eq!(refused(&memory), (21, 8 * 4_096, 4_096));
    assert_eq!(refused(&memory[..4_096]), (20, 8 * 4_096, 4_096));
    memory[4_095] = RECTANGLE;
    assert_eq!(refused(&memory), (21, 8 * 4_096, 4_096));
}

#[test]
fn a_circle_ends() {
    assert_eq!(refused(&[PIPE, for_good(0)]), (21, 0, 4_096));
    assert_eq!(refused(&[for_good(0)]), (21, 0, 4_096));
}

#[test]
fn an_output_too_short() {
    let memory = bytes_of(&[PIPE, RECTANGLE, FIRST_HALF, SECOND_HALF, END]);
    let mut out = vec![0xAA; 23];
    let translated = translate(&memory, 0, &mut out);
    let refusal = translated.outcome.expect_err("is too short");
    assert_eq!((refusal.ground as u8, refusal.place), (14, 3));
    assert_eq!((translated.read, out), (5, vec![0xAA; 23]));
    let mut out = vec![0xAA; 25];
    assert_eq!(translate(&memory, 0, &mut out).outcome, Ok(3));
    assert_eq!((out[0], out[8], out[24]), (0x27, 0x24, 0xAA));
}

/// The compared memories go to each depth up to eight, and are refused a ninth.
#[test]
fn the_comparison_goes_to_every_depth() {
    let mut reached = [0; MOST_CALLS + 1];
    let mut ninth = 0;
    for case in 0..4_000 {
        let display = display(&mut Rng::of_case(7, case), case);
        let walk = walk(&display.memory, display.start);
        match walk.outcome {
            Ok(()) => reached[walk.deepest] += 1,
            Err(refusal) => {
                let at_a_call = display.memory.get(refusal.place) == Some(&0xDE);
                let deep = walk.deepest == MOST_CALLS;
                ninth += usize::from(refusal.ground as u8 == 23 && at_a_call && deep);
            }
        }
    }
    assert!(reached.iter().all(|count| *count > 0), "{reached:?}");
    assert!(ninth > 0);
}
