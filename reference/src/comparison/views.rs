//! Images to be viewed: request #113.

use crate::comparison::lent::Lent;
use crate::comparison::rng::Rng;
use crate::view::Image;

/// An image, and the memory that is lent: its start and its length.
pub struct Viewed {
    pub image: Image,
    pub start: u64,
    pub length: usize,
}

impl Viewed {
    pub fn random(rng: &mut Rng) -> Viewed {
        let (width, height) = lengths(rng);
        let wrong = rng.pick(&[0, 4, 5, 0x101, u32::MAX]);
        let size = if rng.one_in(20) {
            wrong
        } else {
            rng.between(1, 3) as u32
        };
        let image = Image {
            address: 0,
            width,
            height,
            size,
        };
        let bytes = image.bytes().unwrap_or(40) as u64;
        let (start, address, length) = memory(rng, bytes);
        Viewed {
            image: Image { address, ..image },
            start,
            length: length as usize,
        }
    }

    /// The memory: any bytes, or all values of 16 bits in turn, from any on. An image of
    /// the largest sides has all of them.
    pub fn memory(&self, rng: &mut Rng) -> Lent<u8> {
        if !rng.one_in(4) {
            return Lent::random(rng, self.length);
        }
        let first = rng.number() as u16;
        let pixel = |i: usize| first.wrapping_add((i / 2) as u16).to_be_bytes()[i % 2];
        let bytes: Vec<u8> = (0..self.length).map(pixel).collect();
        Lent::of(rng, &bytes)
    }
}

/// Width and height: most often small, sometimes at a limit, and seldom both large.
fn lengths(rng: &mut Rng) -> (u32, u32) {
    let small = |rng: &mut Rng| rng.between(1, 24) as u32;
    let (one, other) = (small(rng), small(rng));
    match rng.below(400) {
        0 => (1_024, 1_024),
        1..=19 => (rng.pick(&[0, 1_025, u32::MAX, 1 << 16]), one),
        20..=39 => (one, rng.pick(&[0, 1_025, u32::MAX, 1 << 16])),
        40..=49 => (rng.between(1_000, 1_024) as u32, one),
        50..=59 => (one, rng.between(1_000, 1_024) as u32),
        _ => (one, other),
    }
}

/// The start of memory, the image's address and the length of memory.
fn memory(rng: &mut Rng, bytes: u64) -> (u64, u64, u64) {
    let any = rng.number() >> rng.below(64);
    let start = any.min(u64::MAX - 200);
    let before = rng.below(100);
    let after = rng.below(100);
    match rng.below(16) {
        0 => (start + 1, start, bytes + after),
        1 => (start, start + before, before + bytes - 1),
        2 => (start, start, bytes - 1),
        3 => (start, start + before, before),
        4 => (start, rng.number(), bytes),
        // The image or the memory ends beyond the last address.
        5 => (u64::MAX - before, u64::MAX - before, bytes),
        6 => (u64::MAX - before, 0, bytes + 200),
        7 => (start, u64::MAX - before, bytes),
        8..=11 => (start, start, bytes),
        _ => (start, start + before, before + bytes + after),
    }
}
