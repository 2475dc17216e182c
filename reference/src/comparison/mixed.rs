//! The check's answer and the registers after a list as one number, as the
//! benchmark's functions answer it (`crates/rdp_bench/specs/Mixed.antt` has the
//! recipe): the fields of each register side by side, and these numbers joined.

use crate::check::check;
use crate::fields::fields_of;
use crate::packed;
use crate::registers::{Registers, TileDescriptor};

const SET_TILE: u8 = 0x35;

/// Values side by side, so many bits apart.
fn laid(apart: u32, values: &[u64]) -> u64 {
    let at = |(i, value): (usize, &u64)| value << (apart * i as u32);
    values.iter().enumerate().map(at).fold(0, |h, v| h ^ v)
}

fn bits(values: &[u64]) -> u64 {
    laid(1, values)
}

fn bytes(values: &[u64]) -> u64 {
    laid(8, values)
}

fn halves(values: &[u64]) -> u64 {
    laid(16, values)
}

/// Up to five numbers, each turned by thirteen bits more than the one before.
fn join(numbers: &[u64]) -> u64 {
    let turn = |(i, number): (usize, &u64)| number.rotate_left(13 * i as u32);
    numbers.iter().enumerate().map(turn).fold(0, |h, v| h ^ v)
}

/// A list's number.
pub fn registers(list: &[u8]) -> u64 {
    let answer = packed::Answer::unpack(packed::check(list));
    let registers = check(list).registers;
    let tiles = registers.tiles.iter().fold(0, tile);
    let answer = laid(32, &[answer.number.into(), answer.place.into()]);
    join(&[
        answer ^ tiles,
        colors(&registers),
        combiner(&registers),
        modes(&registers),
        images(&registers),
    ])
}

/// Whether a register is set, and its fields.
fn register(registers: &Registers, number: u8) -> (u64, Vec<u64>) {
    (registers.is_set(number).into(), registers.fields(number))
}

fn colors(registers: &Registers) -> u64 {
    let (fill_set, fill) = register(registers, 0x37);
    let (primitive_set, primitive) = register(registers, 0x3A);
    let color = |number| {
        let (set, fields) = register(registers, number);
        join(&[set, bytes(&fields)])
    };
    join(&[
        laid(8, &[fill_set, fill[0]]),
        color(0x38),
        color(0x39),
        join(&[
            primitive_set,
            bytes(&primitive[..2]),
            bytes(&primitive[2..]),
        ]),
        color(0x3B),
    ])
}

fn combiner(registers: &Registers) -> u64 {
    let (combine_set, combine) = register(registers, 0x3C);
    let (gb_set, gb) = register(registers, 0x2A);
    let (r_set, r) = register(registers, 0x2B);
    let (convert_set, convert) = register(registers, 0x2C);
    join(&[
        laid(8, &[combine_set, combine[0]]),
        join(&[gb_set, halves(&gb[..2]), bytes(&gb[2..])]),
        join(&[r_set, halves(&r[..1]), bytes(&r[1..])]),
        join(&[convert_set, halves(&convert[..4]), halves(&convert[4..])]),
    ])
}

/// The fields of Set Other Modes by their places among 000's bit lines.
fn other_modes(registers: &Registers) -> u64 {
    let (set, m) = register(registers, 0x2F);
    let pixel = &m[24..];
    join(&[
        bits(&[set, m[0], m[13]]),
        bytes(&[m[1], m[14], m[15]]),
        join(&[bits(&m[2..6]), bits(&m[6..10]), bits(&m[10..13])]),
        join(&[bytes(&m[16..20]), bytes(&m[20..24])]),
        join(&[
            bits(&[pixel[0], pixel[1], pixel[2], pixel[5]]),
            bits(&pixel[6..10]),
            bits(&pixel[10..]),
            bytes(&pixel[3..5]),
        ]),
    ])
}

fn modes(registers: &Registers) -> u64 {
    let (depth_set, depth) = register(registers, 0x2E);
    let (scissor_set, scissor) = register(registers, 0x2D);
    let corners = [scissor[0], scissor[1], scissor[4], scissor[5]];
    join(&[
        other_modes(registers),
        join(&[depth_set, halves(&depth)]),
        join(&[
            bits(&[scissor_set, scissor[2], scissor[3]]),
            halves(&corners),
        ]),
    ])
}

fn images(registers: &Registers) -> u64 {
    let image = |number, apart| {
        let (set, mut values) = register(registers, number);
        values.insert(0, set);
        laid(apart, &values)
    };
    join(&[image(0x3F, 9), image(0x3D, 9), image(0x3E, 8)])
}

/// A tile, joined with the tiles before it.
fn tile(before: u64, tile: &TileDescriptor) -> u64 {
    let word = tile.descriptor.unwrap_or(0);
    let lines = fields_of(SET_TILE).iter();
    let d: Vec<u64> = lines.map(|field| field.read(&[word])).collect();
    let size = tile.size.unwrap_or_default();
    let sized = tile.size.is_some();
    join(&[
        bits(&[tile.descriptor.is_some().into(), sized.into()]),
        join(&[
            bytes(&[d[0], d[1], d[4], d[5]]),
            halves(&[d[2], d[3]]),
            bits(&[d[6], d[7], d[10], d[11]]),
            bytes(&[d[8], d[9], d[12], d[13]]),
        ]),
        halves(&[
            size.upper_left_s,
            size.upper_left_t,
            size.lower_right_s,
            size.lower_right_t,
        ]),
        before,
    ])
}
