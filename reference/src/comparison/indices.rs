//! Lists with entries along them: request #111.

use crate::comparison::builder::Builder;
use crate::comparison::lists::settled_number;
use crate::comparison::rng::Rng;
use crate::index::{entries_of, COMMANDS, ENTRY};
use crate::kinds::{commands, words, Command};
use crate::words::{word_at, WORD_BYTES};

/// A list, entries, and a place to ask for.
pub struct Index {
    pub list: Vec<u8>,
    pub entries: Vec<u32>,
    pub place: u32,
}

impl Index {
    /// The case's own list, or one with many commands.
    pub fn random(rng: &mut Rng, own: &[u8]) -> Index {
        let list = if rng.one_in(3) {
            own.to_vec()
        } else {
            many_commands(rng)
        };
        let entries = entries(rng, &list);
        let place = place(rng, &list);
        Index {
            list,
            entries,
            place,
        }
    }

    /// What the command at the place becomes.
    pub fn replacement(&self, rng: &mut Rng) -> Vec<u8> {
        let at = self.place as usize;
        let is_inside = at < self.list.len() / WORD_BYTES;
        let old = is_inside.then(|| Command {
            place: at,
            word: word_at(&self.list, at),
        });
        let old = old.map_or(0, Command::number);
        replacement(rng, old)
    }
}

/// Commands that leave the marks as they are.
const QUIET: &[u8] = &[0x00, 0x2D, 0x35, 0x37, 0x3C];

/// Commands of one word that change the marks.
const CHANGING: &[u8] = &[0x36, 0x36, 0x33, 0x34, 0x26, 0x27, 0x28, 0x29];

/// A list of some hundred commands, seldom cut. In some lists few change the marks, so
/// that one change is seen far behind it.
fn many_commands(rng: &mut Rng) -> Vec<u8> {
    let edge = (COMMANDS as u64) * rng.between(1, 3);
    let any = rng.between(1, 200);
    let count = rng.pick(&[any, any, edge - 1, edge, edge + 1]);
    let changing_one_in = rng.pick(&[1, 20, 100]);
    let mut builder = Builder::new(rng, 0);
    for _ in 0..count {
        let rng = &mut *builder.rng;
        let any = settled_number(rng);
        let quiet = rng.pick(QUIET);
        let number = if rng.one_in(changing_one_in) {
            any
        } else {
            quiet
        };
        builder.random(number);
    }
    let mut list = builder.list();
    match rng.below(16) {
        0 => list.truncate(list.len() - WORD_BYTES),
        1 => list.truncate(rng.below(list.len() as u64) as usize),
        2 => list.extend(0x0F00_0000_0000_0000u64.to_be_bytes()),
        _ => {}
    }
    list
}

/// The entries of the list, now and then others.
fn entries(rng: &mut Rng, list: &[u8]) -> Vec<u32> {
    let mut entries = entries_of(list).as_flattened().to_vec();
    if rng.one_in(3) {
        for _ in 0..rng.between(1, 2) {
            spoil(rng, list, &mut entries);
        }
    }
    entries
}

/// Makes entries foreign: fewer, more, in another order, with other places or marks.
fn spoil(rng: &mut Rng, list: &[u8], entries: &mut Vec<u32>) {
    let count = entries.len() / ENTRY;
    let words = list.len() as u64 / 8;
    let at = ENTRY * rng.below(count.max(1) as u64) as usize;
    match rng.below(9) {
        0 => entries.clear(),
        1 => entries.truncate(rng.below(entries.len() as u64 + 1) as usize),
        2 => entries.extend([rng.below(words + 2) as u32, rng.below(16) as u32]),
        3 => entries.push(rng.number() as u32),
        4 if count > 1 => entries.rotate_left(ENTRY),
        5 if count > 0 => entries[at] = rng.below(words + 2) as u32,
        6 if count > 0 => entries[at + 1] = rng.below(16) as u32,
        7 if count > 0 => entries[at + 1] = rng.pick(&[16, 17, 32, 255, 256, u32::MAX]),
        _ if count > 0 => entries[at] = rng.pick(&[0, 1, u32::MAX]),
        _ => entries.extend([0, 0]),
    }
}

/// A place to ask for: most often a command's, the last before an entry among them.
fn place(rng: &mut Rng, list: &[u8]) -> u32 {
    let places: Vec<usize> = commands(list).map(|command| command.place).collect();
    let words = list.len() as u64 / 8;
    let near_entry = COMMANDS as u64 * rng.below(4) + rng.below(3);
    match rng.below(16) {
        0 => rng.below(words + 3) as u32,
        1 => rng.pick(&[u32::MAX, words as u32, 1 << 31]),
        2..=6 if !places.is_empty() => {
            let index = near_entry.saturating_sub(1) as usize;
            places[index.min(places.len() - 1)] as u32
        }
        _ if !places.is_empty() => rng.pick(&places) as u32,
        _ => rng.below(3) as u32,
    }
}

/// A command of the same length, of any, cut, or with bytes after it.
fn replacement(rng: &mut Rng, old: u8) -> Vec<u8> {
    let any = rng.below(64) as u8;
    let alike: Vec<u8> = (0..64)
        .filter(|number| words(*number) == words(old))
        .collect();
    let number = match rng.below(8) {
        0 => any,
        1 | 2 => old,
        3..=6 if words(old) == 1 => rng.pick(CHANGING),
        _ => rng.pick(&alike),
    };
    let mut builder = Builder::new(rng, 0);
    builder.random(number);
    let mut new = builder.list();
    match rng.below(8) {
        0 => new.truncate(rng.below(new.len() as u64) as usize),
        1 => new.extend(rng.bytes(24)),
        _ => {}
    }
    new
}
