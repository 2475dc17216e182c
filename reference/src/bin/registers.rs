//! Prints the registers after lists 0 to 244, then after 49 words of list 0 with
//! zeros up to 32,776 bytes, a line for each:
//!
//!     number place hazards colours combiner modes images tile0 .. tile7
//!
//! The check's answer and the sum of the marks (P 1, T 2, D 4, G 8) in decimal,
//! and a digest for each group of registers, in 16 hexadecimal digits. The
//! library's program, `crates/rdp_registers`, makes the same lists and must print
//! the same lines: its file `stdout` is what this program prints. The two share
//! the recipe of the lists, that of the digests, and nothing else.
//!
//! The lists. List n starts from the state n xor SEED, from which four steps of the
//! generator are taken. Each step more gives a word, whose command number is
//! changed by n mod 8: 0, 1, 2 and 7 have no draw, no Sync Full and no unassigned number (`quiet`); 3, 4
//! and 5 start with what ground 5 asks for and have more syncs, loads and Set Tile
//! than by chance (`drawing`); 6 is left as it came. With w = n mod 49 list n has w
//! words; for 7, w words and 1 + w mod 7 bytes, which are zero.
//!
//! The digest of a group. From 0 on, each value is xored in and the generator's
//! step taken. The values are, for each register, 1 where it is set and else 0,
//! then its fields in the order of 000's bit lines; for a tile, whether it is set,
//! its fields, whether its size is set, and the size.

use reference::check::check;
use reference::fields::fields_of;
use reference::marks::Marks;
use reference::registers::{Registers, TileDescriptor};
use reference::words::{bits, bytes_of};

const SEED: u64 = 0x9E37_79B9_7F4A_7C15;
const SET_TILE: u8 = 0x35;

/// The groups, each by the command numbers that set its registers.
const COLORS: &[u8] = &[0x37, 0x38, 0x39, 0x3A, 0x3B];
const COMBINER: &[u8] = &[0x3C, 0x2A, 0x2B, 0x2C];
const MODES: &[u8] = &[0x2F, 0x2E, 0x2D];
const IMAGES: &[u8] = &[0x3F, 0x3D, 0x3E];

fn main() {
    for n in 0..245 {
        println!("{}", line(&list(n)));
    }
    let mut long = bytes_of(&words(0, 49));
    long.resize(32_776, 0);
    println!("{}", line(&long));
}

/// A step of the generator, which is a 64-bit xorshift.
fn next(x: u64) -> u64 {
    let x = x ^ x << 13;
    let x = x ^ x >> 7;
    x ^ x << 17
}

/// The first words of list n.
fn words(n: u64, count: usize) -> Vec<u64> {
    let mut x = n ^ SEED;
    for _ in 0..4 {
        x = next(x);
    }
    let mut words = Vec::new();
    for place in 0..count {
        x = next(x);
        let number = number_of(n, place, bits(x, 61, 56));
        words.push(x & !(0x3F << 56) | number << 56);
    }
    words
}

/// The command number at a place of list n, where the generator gave another.
fn number_of(n: u64, place: usize, number: u64) -> u64 {
    match n % 8 {
        3..=5 => drawing(place, number),
        6 => number,
        _ => quiet(number),
    }
}

fn quiet(number: u64) -> u64 {
    match number | 0x20 {
        0x20..=0x23 => 0x28,
        0x24 => 0x30,
        0x25 => 0x33,
        0x29 => 0x35,
        0x31 => 0x00,
        0x36 => 0x32,
        number => number,
    }
}

fn drawing(place: usize, number: u64) -> u64 {
    match (place, number) {
        (0, _) => 0x2F,
        (1, _) => 0x3F,
        (2, _) => 0x2D,
        (_, 0x00..=0x07) => 0x35,
        (_, 0x10..=0x17) => 0x27,
        (_, 0x18 | 0x19) => 0x26,
        (_, 0x1A | 0x1B | 0x20..=0x23) => 0x28,
        (_, 0x1C..=0x1F) => 0x34,
        (_, 0x31) => 0x00,
        _ => number,
    }
}

fn list(n: u64) -> Vec<u8> {
    let count = (n % 49) as usize;
    let mut list = bytes_of(&words(n, count));
    if n % 8 == 7 {
        list.resize(list.len() + 1 + count % 7, 0);
    }
    list
}

fn line(list: &[u8]) -> String {
    let checked = check(list);
    let (number, place) = match checked.outcome {
        Ok(words) => (0, words),
        Err(refusal) => (refusal.ground as u8, refusal.place),
    };
    let groups = [COLORS, COMBINER, MODES, IMAGES];
    let groups = groups.map(|group| group_values(&checked.registers, group));
    let tiles = checked.registers.tiles.map(|tile| tile_values(&tile));
    let mut line = format!("{number} {place} {}", sum(checked.marks));
    for values in groups.iter().chain(&tiles) {
        line += &format!(" {:016x}", digest(values));
    }
    line
}

fn sum(marks: Marks) -> u8 {
    let Marks {
        pipe,
        tile,
        drawing,
        loading,
    } = marks;
    u8::from(pipe) + 2 * u8::from(tile) + 4 * u8::from(drawing) + 8 * u8::from(loading)
}

fn digest(values: &[u64]) -> u64 {
    values.iter().fold(0, |h, value| next(h ^ value))
}

fn group_values(registers: &Registers, group: &[u8]) -> Vec<u64> {
    let mut values = Vec::new();
    for number in group {
        values.push(u64::from(registers.is_set(*number)));
        values.extend(registers.fields(*number));
    }
    values
}

fn tile_values(tile: &TileDescriptor) -> Vec<u64> {
    let word = tile.descriptor.unwrap_or(0);
    let size = tile.size.unwrap_or_default();
    let mut values = vec![u64::from(tile.descriptor.is_some())];
    values.extend(fields_of(SET_TILE).iter().map(|field| field.read(&[word])));
    values.extend([
        u64::from(tile.size.is_some()),
        size.upper_left_s,
        size.upper_left_t,
        size.lower_right_s,
        size.lower_right_t,
    ]);
    values
}
