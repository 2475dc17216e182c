//! Request #106: Load Tile into texture memory, and texture rectangles in COPY mode,
//! byte by byte. Request #112: Load Block.

use crate::area::{covered, Area};
use crate::registers::{is_16_bit_rgba, size_of, Registers, TextureImage, TileSize};
use crate::words::bits;

/// "Texture memory is 4,096 lent bytes."
pub const TEXTURE_BYTES: usize = 4_096;

/// The size of a colour image of 16 bits.
const BITS_16: u64 = 2;

/// One byte's way: its address in lent memory, and its byte number in texture memory,
/// which may lie outside.
#[derive(Clone, Copy, Debug, PartialEq, Eq)]
pub struct Move {
    pub address: u64,
    pub byte: i64,
}

/// The way of a texel's two bytes.
fn moves_of_texel(address: u64, byte: i64) -> [Move; 2] {
    let second = Move {
        address: address + 1,
        byte: byte + 1,
    };
    [Move { address, byte }, second]
}

/// What a tile's descriptor says of places in texture memory, in words of 8 bytes.
#[derive(Clone, Copy, Debug, PartialEq, Eq)]
struct Tile {
    line: i64,
    tmem: i64,
}

impl Tile {
    /// 000, "Set Tile": line 49:41, address 40:32.
    fn of(descriptor: u64) -> Tile {
        Tile {
            line: bits(descriptor, 49, 41) as i64,
            tmem: bits(descriptor, 40, 32) as i64,
        }
    }

    /// A texel's first byte: "byte 8·tmem + 8·line·r + 2·c, with the byte number's
    /// bit 2 turned over in odd rows".
    fn byte_of_texel(self, row: i64, column: i64) -> i64 {
        let byte = 8 * self.tmem + 8 * self.line * row + 2 * column;
        turned(byte, row % 2 != 0)
    }
}

/// A byte number, with "bit 2 turned over" where that is due.
fn turned(byte: i64, is_due: bool) -> i64 {
    if is_due {
        byte ^ 4
    } else {
        byte
    }
}

/// A descriptor that is "set and 16-bit RGBA".
fn descriptor(registers: &Registers, tile: u64) -> Option<u64> {
    let descriptor = registers.tiles[tile as usize].descriptor;
    descriptor.filter(|word| is_16_bit_rgba(*word))
}

/// A tile's number in a load or a texture rectangle.
fn tile_of(word: u64) -> u64 {
    bits(word, 26, 24)
}

/// One Load Tile with the registers that it reads.
#[derive(Clone, Copy, Debug, PartialEq, Eq)]
pub struct LoadTile {
    /// Its corners, in quarter texels.
    block: TileSize,
    image: TextureImage,
    tile: Tile,
}

impl LoadTile {
    /// Nothing, where ground 17 holds.
    pub fn of(registers: &Registers, word: u64) -> Option<LoadTile> {
        Some(LoadTile {
            block: size_of(word),
            image: registers.texture_image()?,
            tile: Tile::of(descriptor(registers, tile_of(word))?),
        })
    }

    /// From lent memory to texture memory. "Texels are taken row by row and a later
    /// one wins."
    pub fn moves(&self) -> impl Iterator<Item = Move> + '_ {
        let texels = self.rows().flat_map(|(r, row)| {
            let columns = self.columns();
            columns.map(move |(c, column)| (r, row, c, column))
        });
        texels.flat_map(|(r, row, c, column)| {
            let byte = self.tile.byte_of_texel(r, c);
            moves_of_texel(source(self.image, row, column), byte)
        })
    }

    /// The rows, each after its number in the block.
    fn rows(&self) -> impl Iterator<Item = (i64, u64)> {
        (0..).zip(covered(self.block.upper_left_t, self.block.lower_right_t))
    }

    fn columns(&self) -> impl Iterator<Item = (i64, u64)> {
        (0..).zip(covered(self.block.upper_left_s, self.block.lower_right_s))
    }
}

/// "Texture image address + (row·width + column)·2."
fn source(image: TextureImage, row: u64, column: u64) -> u64 {
    image.address + (row * image.width + column) * 2
}

/// The most texels of a Load Block.
const MOST_TEXELS: u64 = 2_048;

/// One Load Block with the registers that it reads.
#[derive(Clone, Copy, Debug, PartialEq, Eq)]
pub struct LoadBlock {
    /// The address of the first texel.
    first: u64,
    texels: u64,
    dxt: u64,
    tile: Tile,
}

impl LoadBlock {
    /// Nothing, where ground 17 holds, which "refuses one of no texel or over 2,048". "S
    /// and t are whole texels here."
    pub fn of(registers: &Registers, word: u64) -> Option<LoadBlock> {
        let fields = size_of(word);
        let image = registers.texture_image()?;
        let texels = (fields.lower_right_s + 1).checked_sub(fields.upper_left_s)?;
        let block = LoadBlock {
            first: source(image, fields.upper_left_t, fields.upper_left_s),
            texels,
            dxt: fields.lower_right_t,
            tile: Tile::of(descriptor(registers, tile_of(word))?),
        };
        (1..=MOST_TEXELS).contains(&texels).then_some(block)
    }

    /// From lent memory to texture memory: the texels "are read on" from the first, also
    /// past the end of its row.
    pub fn moves(&self) -> impl Iterator<Item = Move> + '_ {
        (0..self.texels).flat_map(|k| moves_of_texel(self.first + 2 * k, self.byte_of_texel(k)))
    }

    /// "Texel k goes to byte 8·tmem + 2·k, with bit 2 turned over when
    /// floor(floor(k/4)·dxt / 2048) is odd."
    fn byte_of_texel(&self, k: u64) -> i64 {
        let byte = 8 * self.tile.tmem + 2 * k as i64;
        turned(byte, k / 4 * self.dxt / 2_048 % 2 == 1)
    }
}

/// One texture rectangle in COPY mode with the registers that it reads.
#[derive(Clone, Copy, Debug, PartialEq, Eq)]
pub struct CopyRectangle {
    area: Area,
    tile: Tile,
    /// The texel of the rectangle's own first pixel, which the scissor may drop.
    pub row: i64,
    pub column: i64,
}

impl CopyRectangle {
    /// Nothing, where ground 17 holds.
    pub fn of(registers: &Registers, area: Area, words: [u64; 2]) -> Option<CopyRectangle> {
        let number = tile_of(words[0]);
        let descriptor = descriptor(registers, number)?;
        let size = registers.tiles[number as usize].size.unwrap_or_default();
        let sound = area.image.size == BITS_16
            && steps_by_texels(words[1])
            && starts_at_a_texel(words[1])
            && is_in_whole_texels(size)
            && is_plain(descriptor)
            && registers.copies_plainly();
        let (s, t) = coordinates(words[1]);
        sound.then_some(CopyRectangle {
            area,
            tile: Tile::of(descriptor),
            row: t / 32 - size.upper_left_t as i64 / 4,
            column: s / 32 - size.upper_left_s as i64 / 4,
        })
    }

    /// From texture memory to lent memory: "pixel (x, y) reads the texel of row
    /// t + y - top - tile top, column likewise, top being the rectangle's own first
    /// row".
    pub fn moves(&self) -> impl Iterator<Item = Move> + '_ {
        let top = self.area.rectangle.top / 4;
        let left = self.area.rectangle.left / 4;
        self.area.kept_pixels().flat_map(move |(x, y)| {
            let row = self.row + (y - top) as i64;
            let column = self.column + (x - left) as i64;
            let byte = self.tile.byte_of_texel(row, column);
            moves_of_texel(self.area.bytes_of_pixel(x, y).start, byte)
        })
    }
}

/// The coordinates s and t, in parts of 32 of a texel.
fn coordinates(second_word: u64) -> (i64, i64) {
    let signed = |high, low| i64::from(bits(second_word, high, low) as u16 as i16);
    (signed(63, 48), signed(47, 32))
}

/// "Dsdx 0x1000, dtdy 0x0400."
fn steps_by_texels(second_word: u64) -> bool {
    bits(second_word, 31, 16) == 0x1000 && bits(second_word, 15, 0) == 0x0400
}

/// "S and t .. in whole texels."
fn starts_at_a_texel(second_word: u64) -> bool {
    let (s, t) = coordinates(second_word);
    s % 32 == 0 && t % 32 == 0
}

/// "The tile's upper left in whole texels."
fn is_in_whole_texels(size: TileSize) -> bool {
    size.upper_left_s.is_multiple_of(4) && size.upper_left_t.is_multiple_of(4)
}

/// "Mask, shift, mirror .. off", of both axes.
fn is_plain(descriptor: u64) -> bool {
    bits(descriptor, 18, 10) == 0 && bits(descriptor, 8, 0) == 0
}
