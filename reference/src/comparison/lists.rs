//! The lists of the cases.

use crate::comparison::builder::Builder;
use crate::comparison::rng::Rng;
use crate::comparison::scenes::{scene_list, Scene, CYCLE_TYPE};
use crate::comparison::textures::copy_list;
use crate::kinds::is_unassigned;
use crate::words::WORD_BYTES;

const SET_TILE: u8 = 0x35;

/// The size's place among the fields of Set Color Image.
const IMAGE_SIZE: usize = 1;

/// The list of a case: the case's number chooses the class of list.
pub fn list(rng: &mut Rng, case: u64) -> Vec<u8> {
    match case % 500 {
        0..=5 => long_list(rng),
        6..=7 => large_scene(rng),
        8..=19 => medium_scene(rng),
        20..=27 => medium_copies(rng),
        28..=49 => random_bytes(rng),
        50..=71 => random_commands(rng),
        at @ 72..=135 => {
            let number = mostly_assigned(rng, (at - 72) as u8, 4);
            one_command(rng, number)
        }
        at @ 136..=199 => {
            let number = mostly_assigned(rng, (at - 136) as u8, 4);
            command_after_marks(rng, number)
        }
        200..=249 => small_scene(rng),
        250..=304 => small_copies(rng),
        305..=322 => damaged(rng, small_scene),
        323..=339 => damaged(rng, small_copies),
        340..=389 => mixed_list(rng, 16),
        390..=419 => damaged(rng, |rng| mixed_list(rng, 8)),
        420..=459 => short_list(rng, 3),
        460..=484 => short_list(rng, 6),
        _ => command_after_marks(rng, SET_TILE),
    }
}

fn small_scene(rng: &mut Rng) -> Vec<u8> {
    let reach = rng.between(0, 12);
    scene_list(rng, reach, 16)
}

fn small_copies(rng: &mut Rng) -> Vec<u8> {
    let reach = rng.between(0, 12);
    copy_list(rng, reach, 16)
}

fn medium_copies(rng: &mut Rng) -> Vec<u8> {
    let reach = rng.between(16, 48);
    copy_list(rng, reach, 8)
}

fn medium_scene(rng: &mut Rng) -> Vec<u8> {
    let reach = rng.between(16, 96);
    scene_list(rng, reach, 6)
}

fn large_scene(rng: &mut Rng) -> Vec<u8> {
    let reach = rng.between(200, 1_023);
    scene_list(rng, reach, 3)
}

fn random_bytes(rng: &mut Rng) -> Vec<u8> {
    let length = rng.below(200) as usize;
    let whole = length / 8 * 8;
    let length = rng.pick(&[length, whole]);
    let mut bytes = rng.bytes(length);
    for word in bytes.chunks_mut(WORD_BYTES) {
        let ignored = word[0] & 0xC0;
        word[0] = ignored | mostly_assigned(rng, word[0] % 64, 16);
    }
    bytes
}

/// A command number, which stays unassigned once in `times`, on average.
fn mostly_assigned(rng: &mut Rng, number: u8, times: u64) -> u8 {
    if is_unassigned(number) && !rng.one_in(times) {
        rng.between(0x24, 0x30) as u8
    } else {
        number
    }
}

/// Whole words with any command number and random bits.
fn random_commands(rng: &mut Rng) -> Vec<u8> {
    let count = rng.between(1, 12);
    let mut builder = Builder::new(rng, 50);
    for _ in 0..count {
        let any = builder.rng.below(64) as u8;
        let number = mostly_assigned(builder.rng, any, 16);
        builder.random(number);
    }
    builder.list()
}

/// One command alone, whole, cut, or with bytes after it.
fn one_command(rng: &mut Rng, number: u8) -> Vec<u8> {
    let mut builder = Builder::new(rng, 0);
    builder.random(number);
    let mut list = builder.list();
    match rng.below(4) {
        0 => list.truncate(rng.below(list.len() as u64) as usize),
        1 => {
            let extra = rng.below(24) as usize;
            list.extend(rng.bytes(extra));
        }
        _ => {}
    }
    list
}

/// Modes, image and scissor with random bits; seldom FILL on a 4-bit image.
fn random_setup(builder: &mut Builder) {
    let modes = builder.random_fields(0x2F);
    let mut image = builder.random_fields(0x3F);
    if modes[CYCLE_TYPE] == 3 && !builder.rng.one_in(20) {
        image[IMAGE_SIZE] = builder.rng.between(1, 3);
    }
    builder.command(0x2F, &modes);
    builder.command(0x3F, &image);
    builder.random(0x2D);
}

/// Draws, loads and syncs that leave some marks, and then this command.
fn command_after_marks(rng: &mut Rng, number: u8) -> Vec<u8> {
    let steps = rng.below(5);
    let sync_percent = rng.pick(&[50, 100, 100]);
    let mut builder = Builder::new(rng, sync_percent);
    random_setup(&mut builder);
    for _ in 0..steps {
        builder.one_of(&[0x36, 0x08, 0x24, 0x0A, 0x34, 0x30, 0x26, 0x28]);
    }
    builder.sync_percent = 0;
    builder.random(number);
    builder.list()
}

/// One command number: now and then a change of the modes or the image.
fn mixed_number(rng: &mut Rng) -> u8 {
    if rng.one_in(24) {
        rng.pick(&[0x2F, 0x3F])
    } else {
        settled_number(rng)
    }
}

/// One command number that leaves modes and image alone: draws, loads and
/// attributes often.
pub fn settled_number(rng: &mut Rng) -> u8 {
    match rng.below(23) {
        0..=2 => 0x36,
        3 => rng.between(0x24, 0x25) as u8,
        4..=5 => rng.between(0x08, 0x0F) as u8,
        6..=9 => rng.pick(&[0x30, 0x33, 0x34]),
        10..=12 => 0x35,
        13..=16 => rng.pick(&[0x2A, 0x2B, 0x2C, 0x37, 0x38, 0x39, 0x3B, 0x3C, 0x3E]),
        17..=18 => rng.pick(&[0x2D, 0x2E, 0x32, 0x3A, 0x3D]),
        19..=20 => rng.pick(&[0x26, 0x27, 0x28]),
        _ => 0x00,
    }
}

/// A list of all kinds of commands.
fn mixed_list(rng: &mut Rng, steps: u64) -> Vec<u8> {
    let steps = rng.between(1, steps);
    let sync_percent = rng.pick(&[0, 0, 50, 90, 100]);
    let mut builder = Builder::new(rng, sync_percent);
    if !builder.rng.one_in(10) {
        random_setup(&mut builder);
    }
    for _ in 0..steps {
        let number = mixed_number(builder.rng);
        builder.usual(number);
    }
    if builder.rng.one_in(4) {
        builder.random(0x29);
    }
    builder.list()
}

/// Commands that start work or need it ended, and a few others.
const NEEDY: &[u8] = &[
    0x36, 0x08, 0x24, 0x25, 0x0A, 0x30, 0x33, 0x34, 0x35, 0x35, 0x37, 0x3B, 0x3C, 0x00, 0x26,
];

/// A setup and a few commands, one of them perhaps before the setup.
fn short_list(rng: &mut Rng, steps: u64) -> Vec<u8> {
    let steps = rng.between(1, steps);
    let sync_percent = rng.pick(&[0, 0, 0, 50, 100]);
    let mut builder = Builder::new(rng, sync_percent);
    let early = builder.rng.one_in(3);
    if early {
        builder.one_of(&[0x30, 0x33, 0x34, 0x35, 0x00]);
    }
    random_setup(&mut builder);
    for step in u64::from(early)..steps {
        builder.one_of(if step == 0 { &NEEDY[..8] } else { NEEDY });
    }
    builder.list()
}

/// A list with a few of its bytes or words changed, removed, doubled or cut.
pub fn damaged(rng: &mut Rng, whole: impl Fn(&mut Rng) -> Vec<u8>) -> Vec<u8> {
    let mut list = whole(rng);
    for _ in 0..rng.between(1, 3) {
        damage(rng, &mut list);
    }
    list
}

fn damage(rng: &mut Rng, list: &mut Vec<u8>) {
    if list.len() < 8 {
        return;
    }
    let byte = rng.below(list.len() as u64) as usize;
    let word = rng.below(list.len() as u64 / 8) as usize * 8;
    match rng.below(8) {
        0 | 1 => list[byte] ^= 1 << rng.below(8),
        2 => list[byte] = rng.number() as u8,
        3 => list[word] = rng.number() as u8,
        4 => drop(list.drain(word..word + 8)),
        5 => list.extend_from_within(word..word + 8),
        6 => list.truncate(if rng.one_in(2) { byte } else { word }),
        _ => {
            let extra = rng.bytes(8);
            drop(list.splice(word..word, extra));
        }
    }
}

/// Lengths in bytes around the limits of the repair and of the check.
const LONG: &[usize] = &[
    16_368, 16_376, 16_377, 16_383, 16_384, 16_384, 16_385, 16_391, 16_392, 16_400, 32_752, 32_760,
    32_761, 32_767, 32_768, 32_768, 32_769, 32_775, 32_776, 32_784, 40_000,
];

/// A list of exactly one of these lengths.
fn long_list(rng: &mut Rng) -> Vec<u8> {
    let length = rng.pick(LONG);
    let scene = Scene::new(rng, 6);
    let draws = rng.one_in(2);
    let sync_percent = rng.pick(&[0, 50, 90, 100, 100, 100]);
    let mut builder = Builder::new(rng, sync_percent);
    scene.setup(&mut builder);
    while builder.words.len() + 24 < length / 8 {
        if draws {
            scene.fill_step(&mut builder);
        } else {
            let number = settled_number(builder.rng);
            builder.usual(number);
        }
    }
    pad(builder, length)
}

/// Brings a list to its length with no operations, at the end perhaps the first
/// word of a triangle.
fn pad(mut builder: Builder, length: usize) -> Vec<u8> {
    while builder.words.len() < length / 8 {
        builder.random(0x00);
    }
    if builder.rng.one_in(4) {
        let last = builder.words.len() - 1;
        builder.words[last] = 0x0E << 56;
    }
    let tail = builder.rng.bytes(length % 8);
    let mut list = builder.list();
    list.extend(tail);
    list
}
