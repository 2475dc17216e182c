//! The register state that a list builds up.

use crate::fields::fields_of;
use crate::kinds::{kind, Kind};
use crate::words::{bits, command_number};

const SET_SCISSOR: u8 = 0x2D;
const SET_OTHER_MODES: u8 = 0x2F;
const SET_TILE_SIZE: u8 = 0x32;
const SET_FILL_COLOR: u8 = 0x37;
const SET_TEXTURE_IMAGE: u8 = 0x3D;
const SET_COLOR_IMAGE: u8 = 0x3F;

/// "Registers and the eight tile descriptors start at zero and 'not set'."
#[derive(Clone, Debug, PartialEq, Eq)]
pub struct Registers {
    /// For each setter, by command number, the last word that set it.
    setters: [Option<u64>; 64],
    pub tiles: [TileDescriptor; 8],
}

/// One tile descriptor. `None` is "not set".
#[derive(Clone, Copy, Debug, Default, PartialEq, Eq)]
pub struct TileDescriptor {
    /// The last Set Tile word.
    pub descriptor: Option<u64>,
    pub size: Option<TileSize>,
}

/// A tile's size, as Set Tile Size or a load gives it. After a Load Block the
/// last value is dxt, as 000 says.
#[derive(Clone, Copy, Debug, Default, PartialEq, Eq)]
pub struct TileSize {
    pub upper_left_s: u64,
    pub upper_left_t: u64,
    pub lower_right_s: u64,
    pub lower_right_t: u64,
}

/// What drawing reads of Set Color Image.
#[derive(Clone, Copy, Debug, PartialEq, Eq)]
pub struct ColorImage {
    /// 0, 1, 2, 3 for 4, 8, 16, 32 bits.
    pub size: u64,
    /// In pixels.
    pub width: u64,
    pub address: u64,
}

/// What a load reads of Set Texture Image.
#[derive(Clone, Copy, Debug, PartialEq, Eq)]
pub struct TextureImage {
    /// In texels.
    pub width: u64,
    pub address: u64,
}

/// The scissor: its corners in quarter pixels, and its interlacing.
#[derive(Clone, Copy, Debug, PartialEq, Eq)]
pub struct Scissor {
    pub left: u64,
    pub top: u64,
    pub right: u64,
    pub bottom: u64,
    pub field: bool,
    pub odd: u64,
}

impl Default for Registers {
    fn default() -> Self {
        Registers {
            setters: [None; 64],
            tiles: Default::default(),
        }
    }
}

impl Registers {
    /// Runs one command, given by its first word. Every setter has one word.
    pub fn run(&mut self, word: u64) {
        let number = command_number(word);
        match kind(number) {
            Kind::SetTile => self.tile_of(word).descriptor = Some(word),
            Kind::Load => self.tile_of(word).size = Some(size_of(word)),
            Kind::Free if number == SET_TILE_SIZE => self.tile_of(word).size = Some(size_of(word)),
            Kind::Attribute | Kind::Free => self.setters[usize::from(number)] = Some(word),
            _ => {}
        }
    }

    /// The tile descriptor that bits 26:24 name, for every command that has one
    /// there: Set Tile, Set Tile Size and the loads.
    fn tile_of(&mut self, word: u64) -> &mut TileDescriptor {
        &mut self.tiles[bits(word, 26, 24) as usize]
    }

    /// The fields of the register that a command number sets, zero if not set.
    pub fn fields(&self, number: u8) -> Vec<u64> {
        let word = self.word(number);
        fields_of(number)
            .iter()
            .map(|field| field.read(&[word]))
            .collect()
    }

    /// Whether the register that a command number sets was set.
    pub fn is_set(&self, number: u8) -> bool {
        self.setters[usize::from(number)].is_some()
    }

    /// The last word that set a register, zero if none.
    fn word(&self, number: u8) -> u64 {
        self.setters[usize::from(number)].unwrap_or(0)
    }

    /// What ground 5 asks of every draw: modes, colour image and scissor set.
    pub fn ready_to_draw(&self) -> bool {
        [SET_OTHER_MODES, SET_COLOR_IMAGE, SET_SCISSOR]
            .iter()
            .all(|number| self.is_set(*number))
    }

    /// "Set Other Modes cycle type 53:52 (.. 2 COPY, 3 FILL)."
    fn cycle_type(&self) -> u64 {
        bits(self.word(SET_OTHER_MODES), 53, 52)
    }

    pub fn fill_mode(&self) -> bool {
        self.cycle_type() == 3
    }

    pub fn copy_mode(&self) -> bool {
        self.cycle_type() == 2
    }

    /// Request #106: "perspective, look-up and alpha compare off". 000 has persp_tex_en
    /// at bit 51, tlut_en at 47, alpha_compare_en at 0.
    pub fn copies_plainly(&self) -> bool {
        let modes = self.word(SET_OTHER_MODES);
        [51, 47, 0]
            .into_iter()
            .all(|bit| bits(modes, bit, bit) == 0)
    }

    /// The texture image, if it is "set and 16-bit RGBA".
    pub fn texture_image(&self) -> Option<TextureImage> {
        let word = self.setters[usize::from(SET_TEXTURE_IMAGE)]?;
        is_16_bit_rgba(word).then_some(TextureImage {
            width: bits(word, 41, 32) + 1,
            address: bits(word, 23, 0),
        })
    }

    /// "Set Color Image format 55:53, size 52:51, width minus one 41:32, address
    /// 25:0."
    pub fn color_image(&self) -> ColorImage {
        let word = self.word(SET_COLOR_IMAGE);
        ColorImage {
            size: bits(word, 52, 51),
            width: bits(word, 41, 32) + 1,
            address: bits(word, 25, 0),
        }
    }

    /// "Set Scissor as in 000, with field and odd."
    pub fn scissor(&self) -> Scissor {
        let word = self.word(SET_SCISSOR);
        Scissor {
            left: bits(word, 55, 44),
            top: bits(word, 43, 32),
            right: bits(word, 23, 12),
            bottom: bits(word, 11, 0),
            field: bits(word, 25, 25) == 1,
            odd: bits(word, 24, 24),
        }
    }

    /// 000, "Set Fill Color": color 31:0.
    pub fn fill_color(&self) -> u32 {
        bits(self.word(SET_FILL_COLOR), 31, 0) as u32
    }
}

/// The registers as words: those of the setters by their numbers, then for each tile
/// its descriptor's and its size's. 0 is "not set": no setter's word is 0.
impl Registers {
    pub fn words(&self) -> [u64; WORDS] {
        let setters = setter_numbers().map(|number| self.word(number));
        let tiles = self.tiles.iter().flat_map(|tile| {
            let size = tile.size.map_or(0, word_of_size);
            [tile.descriptor.unwrap_or(0), size]
        });
        let mut words = [0; WORDS];
        for (place, word) in words.iter_mut().zip(setters.chain(tiles)) {
            *place = word;
        }
        words
    }

    pub fn of_words(words: &[u64]) -> Registers {
        let set = |word: &u64| (*word != 0).then_some(*word);
        let mut registers = Registers::default();
        for (number, word) in setter_numbers().zip(words) {
            registers.setters[usize::from(number)] = set(word);
        }
        let tiles = words[setter_numbers().count()..].chunks_exact(2);
        for (tile, words) in registers.tiles.iter_mut().zip(tiles) {
            tile.descriptor = set(&words[0]);
            tile.size = set(&words[1]).map(size_of);
        }
        registers
    }
}

/// The words that hold all registers, and one to spare.
pub const WORDS: usize = 32;

/// The numbers of the commands that set a register which is no tile's.
fn setter_numbers() -> impl Iterator<Item = u8> {
    let sets = |number: &u8| match kind(*number) {
        Kind::Attribute => true,
        Kind::Free => *number != SET_TILE_SIZE,
        _ => false,
    };
    (0..64).filter(sets)
}

/// A Set Tile Size word that gives this size.
fn word_of_size(size: TileSize) -> u64 {
    u64::from(SET_TILE_SIZE) << 56
        | size.upper_left_s << 44
        | size.upper_left_t << 32
        | size.lower_right_s << 12
        | size.lower_right_t
}

/// Whether a Set Texture Image or a Set Tile says format RGBA, 55:53, of 16 bits, 52:51.
pub fn is_16_bit_rgba(word: u64) -> bool {
    bits(word, 55, 53) == 0 && bits(word, 52, 51) == 2
}

/// The tile size that Set Tile Size and each of the three loads carry, all in
/// the same bits.
pub fn size_of(word: u64) -> TileSize {
    TileSize {
        upper_left_s: bits(word, 55, 44),
        upper_left_t: bits(word, 43, 32),
        lower_right_s: bits(word, 23, 12),
        lower_right_t: bits(word, 11, 0),
    }
}
