//! Drawing: Fill Rectangle in FILL mode (01, "Fill"), by request #106 Load Tile and
//! texture rectangles in COPY mode, and by request #112 Load Block. A whole list is
//! judged before a byte is written.

use crate::answer::{Ground, Refusal};
use crate::area::Area;
use crate::check::check;
use crate::kinds::{commands, is_draw, kind, Command, Kind};
use crate::registers::Registers;
use crate::texture::{CopyRectangle, LoadBlock, LoadTile, Move, TEXTURE_BYTES};
use crate::words::word_at;

const TEXTURE_RECTANGLE: u8 = 0x24;
const LOAD_BLOCK: u8 = 0x33;
const LOAD_TILE: u8 = 0x34;

/// Where the lent memory lies: `start`, `start + 1`, .. No sum of it wraps.
#[derive(Clone, Copy, Debug, PartialEq, Eq)]
struct Lent {
    start: u64,
    length: usize,
}

impl Lent {
    /// The index of an address in the lent memory, if it is inside.
    fn index(self, address: u64) -> Option<usize> {
        let distance = address.checked_sub(self.start)?;
        let index = usize::try_from(distance).ok()?;
        (index < self.length).then_some(index)
    }

    /// The index of an address that was tested.
    fn tested(self, address: u64) -> usize {
        self.index(address).expect("ground 12 was tested")
    }
}

/// Draws a list into memory that starts at a stated address, and answers the
/// list's words. "Drawing runs the whole check, then walks again." 16 comes "after the
/// check and before the second walk".
pub fn draw(
    list: &[u8],
    memory: &mut [u8],
    start: u64,
    texture: &mut [u8],
) -> Result<usize, Refusal> {
    let words = check(list).outcome?;
    if texture.len() != TEXTURE_BYTES {
        return Err(Refusal::new(Ground::TextureMemoryLength, 0));
    }
    let length = memory.len();
    let lent = Lent { start, length };
    for work in works(list, |work| work.outside(lent))? {
        work.perform(memory, lent, texture);
    }
    Ok(words)
}

/// What the draws and loads of a list that passes the check do, or the first refusal:
/// at each command 10, 11, 17, then what `outside` finds.
pub fn works(list: &[u8], outside: impl Fn(&Work) -> Option<Ground>) -> Result<Vec<Work>, Refusal> {
    let mut registers = Registers::default();
    let mut works = Vec::new();
    for command in commands(list) {
        let refused = |ground| Refusal::new(ground, command.place);
        if let Some(work) = work_of(&registers, list, command).map_err(refused)? {
            outside(&work).map_or(Ok(()), |ground| Err(refused(ground)))?;
            works.push(work);
        }
        registers.run(command.word);
    }
    Ok(works)
}

/// What a command does with lent memory and texture memory, if it does anything.
fn work_of(registers: &Registers, list: &[u8], command: Command) -> Result<Option<Work>, Ground> {
    let number = command.number();
    if is_draw(number) {
        draw_of(registers, list, command).map(Some)
    } else if kind(number) == Kind::Load {
        load_of(registers, command).map(Some)
    } else {
        Ok(None)
    }
}

/// A draw: grounds 10, 11 and 17 in this order.
fn draw_of(registers: &Registers, list: &[u8], command: Command) -> Result<Work, Ground> {
    let area = Area::of(registers, command.word);
    let fills = kind(command.number()) == Kind::FillRectangle && registers.fill_mode();
    let copies = command.number() == TEXTURE_RECTANGLE && registers.copy_mode();
    if !fills && !copies {
        return Err(Ground::NotDrawn);
    }
    if !area.image.address.is_multiple_of(64) {
        return Err(Ground::MisalignedImage);
    }
    if fills {
        let color = registers.fill_color();
        return Ok(Work::Fill(Fill { area, color }));
    }
    let words = [command.word, word_at(list, command.place + 1)];
    let copied = CopyRectangle::of(registers, area, words);
    copied.map(Work::Copy).ok_or(Ground::NotCopied)
}

/// A load: ground 17, of "Load TLUT .. in any drawn list" too.
fn load_of(registers: &Registers, command: Command) -> Result<Work, Ground> {
    let word = command.word;
    let load = match command.number() {
        LOAD_TILE => LoadTile::of(registers, word).map(Work::Load),
        LOAD_BLOCK => LoadBlock::of(registers, word).map(Work::Block),
        _ => None,
    };
    load.ok_or(Ground::NotCopied)
}

/// What one command does, with the registers that it does it with.
#[derive(Clone, Copy, Debug, PartialEq, Eq)]
pub enum Work {
    Fill(Fill),
    Load(LoadTile),
    Block(LoadBlock),
    Copy(CopyRectangle),
}

/// One Fill Rectangle.
#[derive(Clone, Copy, Debug, PartialEq, Eq)]
pub struct Fill {
    area: Area,
    color: u32,
}

impl Work {
    /// All addresses of lent memory that are written or read.
    pub fn addresses(&self) -> Box<dyn Iterator<Item = u64> + '_> {
        match self {
            Work::Fill(fill) => Box::new(fill.area.addresses()),
            _ => Box::new(self.moves().map(|moved| moved.address)),
        }
    }

    /// The bytes between lent memory and texture memory, in their order.
    pub fn moves(&self) -> Box<dyn Iterator<Item = Move> + '_> {
        match self {
            Work::Fill(_) => Box::new(std::iter::empty()),
            Work::Load(load) => Box::new(load.moves()),
            Work::Block(block) => Box::new(block.moves()),
            Work::Copy(copy) => Box::new(copy.moves()),
        }
    }

    /// Ground 12 over all bytes, then 18 over all.
    fn outside(&self, lent: Lent) -> Option<Ground> {
        let texture = 0..TEXTURE_BYTES as i64;
        if self
            .addresses()
            .any(|address| lent.index(address).is_none())
        {
            Some(Ground::OutsideMemory)
        } else if self.moves().any(|moved| !texture.contains(&moved.byte)) {
            Some(Ground::OutsideTexture)
        } else {
            None
        }
    }

    fn perform(&self, memory: &mut [u8], lent: Lent, texture: &mut [u8]) {
        match self {
            Work::Fill(fill) => fill.paint(memory, lent),
            Work::Load(_) | Work::Block(_) => self.moves().for_each(|Move { address, byte }| {
                texture[byte as usize] = memory[lent.tested(address)];
            }),
            Work::Copy(_) => self.moves().for_each(|Move { address, byte }| {
                memory[lent.tested(address)] = texture[byte as usize];
            }),
        }
    }
}

impl Fill {
    /// "The byte at address a is byte a mod 4 of the fill colour, most significant
    /// first."
    fn paint(&self, memory: &mut [u8], lent: Lent) {
        let color = self.color.to_be_bytes();
        for address in self.area.addresses() {
            memory[lent.tested(address)] = color[(address % 4) as usize];
        }
    }
}
