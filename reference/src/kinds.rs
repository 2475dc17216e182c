//! 01, "Words and lengths": the kind and the words of each command number. Request
//! #107: "Only 0x00 counts as no operation; the other 28 numbers are named unassigned."

use crate::words::{command_number, word_at, WORD_BYTES};

#[derive(Clone, Copy, Debug, PartialEq, Eq)]
pub enum Sync {
    Load,
    Tile,
    Pipe,
    Full,
}

impl Sync {
    /// The wait in cycles: "25 (Load), 33 (Tile), 50 (Pipe)", and by request #105
    /// "Sync Full nothing".
    pub fn cycles(self) -> u32 {
        match self {
            Sync::Load => 25,
            Sync::Tile => 33,
            Sync::Pipe => 50,
            Sync::Full => 0,
        }
    }
}

#[derive(Clone, Copy, Debug, PartialEq, Eq)]
pub enum Kind {
    NoOperation,
    Unassigned,
    Triangle,
    TextureRectangle,
    FillRectangle,
    Sync(Sync),
    Load,
    SetTile,
    Attribute,
    Free,
}

/// The kind of each of the 64 command numbers.
pub fn kind(number: u8) -> Kind {
    match number {
        0x00 => Kind::NoOperation,
        0x01..=0x07 | 0x10..=0x23 | 0x31 => Kind::Unassigned,
        0x08..=0x0F => Kind::Triangle,
        0x24 | 0x25 => Kind::TextureRectangle,
        0x36 => Kind::FillRectangle,
        0x26 => Kind::Sync(Sync::Load),
        0x28 => Kind::Sync(Sync::Tile),
        0x27 => Kind::Sync(Sync::Pipe),
        0x29 => Kind::Sync(Sync::Full),
        0x30 | 0x33 | 0x34 => Kind::Load,
        0x35 => Kind::SetTile,
        0x2A | 0x2B | 0x2C | 0x2F | 0x37 | 0x38 | 0x39 | 0x3B | 0x3C | 0x3E | 0x3F => {
            Kind::Attribute
        }
        0x2D | 0x2E | 0x32 | 0x3A | 0x3D => Kind::Free,
        _ => panic!("a command number has six bits"),
    }
}

/// The cycles that the command itself waits.
pub fn wait(number: u8) -> u32 {
    match kind(number) {
        Kind::Sync(sync) => sync.cycles(),
        _ => 0,
    }
}

/// Whether the command is a Sync Load, Tile or Pipe.
pub fn is_short_sync(number: u8) -> bool {
    matches!(kind(number), Kind::Sync(sync) if sync != Sync::Full)
}

/// Whether the number names no command.
pub fn is_unassigned(number: u8) -> bool {
    kind(number) == Kind::Unassigned
}

/// Whether the command draws.
pub fn is_draw(number: u8) -> bool {
    matches!(
        kind(number),
        Kind::Triangle | Kind::TextureRectangle | Kind::FillRectangle
    )
}

/// "A textured draw (triangle with bit 57, texture rectangle)."
pub fn is_textured_draw(number: u8) -> bool {
    match kind(number) {
        Kind::Triangle => has_texture(number),
        Kind::TextureRectangle => true,
        _ => false,
    }
}

/// A triangle's bit 58, as a bit of the command number.
pub fn has_shade(number: u8) -> bool {
    number & 4 != 0
}

/// A triangle's bit 57.
pub fn has_texture(number: u8) -> bool {
    number & 2 != 0
}

/// A triangle's bit 56.
pub fn has_zbuffer(number: u8) -> bool {
    number & 1 != 0
}

/// The words that hold a command's fields: for a triangle its base.
pub fn base_words(number: u8) -> usize {
    match kind(number) {
        Kind::Triangle => 4,
        Kind::TextureRectangle => 2,
        _ => 1,
    }
}

/// The words after a triangle's base: "+8 if bit 58, +8 if bit 57, +2 if bit 56".
pub fn suffix_words(number: u8) -> usize {
    if kind(number) != Kind::Triangle {
        return 0;
    }
    8 * usize::from(has_shade(number))
        + 8 * usize::from(has_texture(number))
        + 2 * usize::from(has_zbuffer(number))
}

/// All words of a command.
pub fn words(number: u8) -> usize {
    base_words(number) + suffix_words(number)
}

/// Request #102: the words of the command that begins with this word, whatever its
/// other bits.
pub fn words_from(first_word: u64) -> usize {
    words(command_number(first_word))
}

/// A command of a list: where it stands, and its first word.
#[derive(Clone, Copy, Debug, PartialEq, Eq)]
pub struct Command {
    pub place: usize,
    pub word: u64,
}

impl Command {
    pub fn number(self) -> u8 {
        command_number(self.word)
    }
}

/// The commands of a list, from the first. The last one may run past the end.
pub fn commands(list: &[u8]) -> impl Iterator<Item = Command> + '_ {
    let end = list.len() / WORD_BYTES;
    let mut place = 0;
    std::iter::from_fn(move || {
        let word = (place < end).then(|| word_at(list, place))?;
        let command = Command { place, word };
        place += words_from(word);
        Some(command)
    })
}
