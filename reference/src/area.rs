//! 01, "Fill": the pixels of an image that a rectangle covers and the scissor keeps.

use std::ops::Range;

use crate::registers::{ColorImage, Registers, Scissor};
use crate::words::bits;

/// A rectangle's corners, in quarter pixels.
#[derive(Clone, Copy, Debug, PartialEq, Eq)]
pub struct Rectangle {
    pub left: u64,
    pub top: u64,
    pub right: u64,
    pub bottom: u64,
}

impl Rectangle {
    /// "Lower right x 55:44, y 43:32, upper left x 23:12, y 11:0", which also holds of
    /// a texture rectangle's first word.
    fn of(word: u64) -> Rectangle {
        Rectangle {
            left: bits(word, 23, 12),
            top: bits(word, 11, 0),
            right: bits(word, 55, 44),
            bottom: bits(word, 43, 32),
        }
    }
}

/// A rectangle with the registers that say where it is drawn.
#[derive(Clone, Copy, Debug, PartialEq, Eq)]
pub struct Area {
    pub rectangle: Rectangle,
    pub scissor: Scissor,
    pub image: ColorImage,
}

impl Area {
    pub fn of(registers: &Registers, word: u64) -> Area {
        Area {
            rectangle: Rectangle::of(word),
            scissor: registers.scissor(),
            image: registers.color_image(),
        }
    }

    /// The addresses of all bytes of all kept pixels.
    pub fn addresses(&self) -> impl Iterator<Item = u64> + '_ {
        self.kept_pixels()
            .flat_map(|(x, y)| self.bytes_of_pixel(x, y))
    }

    /// The pixels of the rectangle that the scissor keeps, "row by row, each row from
    /// the left".
    pub fn kept_pixels(&self) -> impl Iterator<Item = (u64, u64)> + '_ {
        let rows = covered(self.rectangle.top, self.rectangle.bottom);
        rows.filter(|y| self.keeps_row(*y))
            .flat_map(|y| self.kept_columns().map(move |x| (x, y)))
    }

    fn kept_columns(&self) -> impl Iterator<Item = u64> + '_ {
        let columns = covered(self.rectangle.left, self.rectangle.right);
        columns.filter(|x| self.keeps_column(*x))
    }

    /// "Kept when 4x [is] at least the scissor's upper left and below its lower
    /// right".
    fn keeps_column(&self, x: u64) -> bool {
        4 * x >= self.scissor.left && 4 * x < self.scissor.right
    }

    /// ".. and 4y likewise, and, with field set, when y mod 2 equals odd."
    fn keeps_row(&self, y: u64) -> bool {
        let within = 4 * y >= self.scissor.top && 4 * y < self.scissor.bottom;
        within && (!self.scissor.field || y % 2 == self.scissor.odd)
    }

    /// "Its address is colour address + (y·width + x)·bytes per pixel."
    pub fn bytes_of_pixel(&self, x: u64, y: u64) -> Range<u64> {
        let bytes_per_pixel = self.bytes_per_pixel();
        let address = self.image.address + (y * self.image.width + x) * bytes_per_pixel;
        address..address + bytes_per_pixel
    }

    /// Sizes 1, 2, 3 are 8, 16, 32 bits; no draw on 4 bits comes as far.
    fn bytes_per_pixel(&self) -> u64 {
        match self.image.size {
            1 => 1,
            2 => 2,
            3 => 4,
            _ => unreachable!("grounds 6 and 17 were tested"),
        }
    }
}

/// "Columns run from floor(left/4) to floor(right/4), both included; rows
/// likewise. If the end is below the start, nothing is covered."
pub fn covered(start: u64, end: u64) -> impl Iterator<Item = u64> {
    start / 4..=end / 4
}
