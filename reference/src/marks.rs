//! 01, "Four marks": which work is under way, and which sync a command needs.

use crate::kinds::{is_draw, is_textured_draw, kind, Kind, Sync};

/// The four marks. "A list starts idle, with no mark."
#[derive(Clone, Copy, Debug, Default, PartialEq, Eq, PartialOrd, Ord)]
pub struct Marks {
    /// P: a draw since the last Sync Pipe.
    pub pipe: bool,
    /// T: by request #104, a textured draw or a load since the last Sync Tile or
    /// Pipe.
    pub tile: bool,
    /// D: a draw since the last sync of any kind.
    pub drawing: bool,
    /// G: a load since the last sync of any kind.
    pub loading: bool,
}

impl Marks {
    /// The marks as one number: P 1, T 2, D 4, G 8, summed.
    pub fn sum(self) -> u32 {
        u32::from(self.pipe)
            + 2 * u32::from(self.tile)
            + 4 * u32::from(self.drawing)
            + 8 * u32::from(self.loading)
    }

    /// The marks of a sum. Higher bits don't count.
    pub fn of_sum(sum: u32) -> Marks {
        Marks {
            pipe: sum & 1 != 0,
            tile: sum & 2 != 0,
            drawing: sum & 4 != 0,
            loading: sum & 8 != 0,
        }
    }

    /// The shortest sync that the command needs now, if it needs one.
    pub fn missing_sync(self, number: u8) -> Option<Sync> {
        let (need, sync) = match kind(number) {
            Kind::Attribute => (self.pipe, Sync::Pipe),
            Kind::SetTile => (self.tile, Sync::Tile),
            Kind::Load => (self.drawing, Sync::Load),
            Kind::Triangle | Kind::TextureRectangle | Kind::FillRectangle => {
                (self.loading, Sync::Load)
            }
            Kind::NoOperation | Kind::Unassigned | Kind::Sync(_) | Kind::Free => return None,
        };
        need.then_some(sync)
    }

    /// The marks after a command.
    pub fn after(self, number: u8) -> Marks {
        match kind(number) {
            Kind::Sync(sync) => self.after_sync(sync),
            Kind::Load => Marks {
                tile: true,
                loading: true,
                ..self
            },
            _ if is_draw(number) => Marks {
                pipe: true,
                tile: self.tile || is_textured_draw(number),
                drawing: true,
                ..self
            },
            _ => self,
        }
    }

    /// "Each sync clears the marks whose definition names it; Sync Full clears
    /// all."
    pub fn after_sync(self, sync: Sync) -> Marks {
        Marks {
            pipe: self.pipe && !matches!(sync, Sync::Pipe | Sync::Full),
            tile: self.tile && !matches!(sync, Sync::Tile | Sync::Pipe | Sync::Full),
            drawing: false,
            loading: false,
        }
    }
}
