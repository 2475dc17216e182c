//! Request #111: entries along a list, and from them the marks before one command.

use crate::answer::{Ground, Refusal};
use crate::check::{decodes, length_test, CHECK_LIMIT};
use crate::decode::decode;
use crate::kinds::{commands, words, words_from};
use crate::marks::Marks;
use crate::words::{command_number, word_at, WORD_BYTES};

/// "A lent buffer of 32-bit numbers, two an entry": its place and its marks.
pub const ENTRY: usize = 2;

/// From an entry to the next, and the most that a question reads.
pub const COMMANDS: usize = 64;

/// The greatest sum of marks.
const MOST_MARKS: u32 = 15;

/// A question's answer: the marks before the command, and the commands read.
#[derive(Clone, Copy, Debug, PartialEq, Eq)]
pub struct Asked {
    pub marks: Marks,
    pub read: usize,
}

/// The entries of a list: "at every 64th command, from the first, its place and the marks
/// before it", missing syncs passed over.
pub fn entries_of(list: &[u8]) -> Vec<[u32; ENTRY]> {
    let mut entries = Vec::new();
    let mut marks = Marks::default();
    for (index, command) in commands(list).enumerate() {
        if index.is_multiple_of(COMMANDS) {
            entries.push([command.place as u32, marks.sum()]);
        }
        marks = marks.after(command.number());
    }
    entries
}

/// Writes the entries of a list; answers how many. "Building refuses by 1 to 3, then 14
/// with the entries needed."
pub fn build(list: &[u8], entries: &mut [u32]) -> Result<usize, Refusal> {
    judge_building(list, entries.len())?;
    let built = entries_of(list);
    entries[..ENTRY * built.len()].copy_from_slice(built.as_flattened());
    Ok(built.len())
}

fn judge_building(list: &[u8], room: usize) -> Result<(), Refusal> {
    decodes(list)?;
    let needed = entries_of(list).len();
    if room < ENTRY * needed {
        return Err(Refusal::new(Ground::OutputTooShort, needed));
    }
    Ok(())
}

/// The marks before the command at a place. "A question gives 1, 2, then 26 .. 3 .. 24",
/// and the last three at the asked place.
pub fn ask(list: &[u8], entries: &[u32], place: u32) -> Result<Asked, Refusal> {
    length_test(list, CHECK_LIMIT)?;
    let asked = place as usize;
    let start = start_of(entries, place);
    let outcome = start.and_then(|(start, marks)| walk(list, start, marks, asked));
    outcome.map_err(|ground| Refusal::new(ground, asked))
}

/// Where a question starts: "the last entry whose place is not beyond the asked one", by
/// its number. 26: "no such entry or that entry's marks not among the sixteen".
fn start_of(entries: &[u32], asked: u32) -> Result<(usize, Marks), Ground> {
    let not_beyond = |entry: &&[u32]| entry[0] <= asked;
    let last = entries.chunks_exact(ENTRY).rfind(not_beyond);
    match last {
        Some(entry) if entry[1] <= MOST_MARKS => Ok((entry[0] as usize, Marks::of_sum(entry[1]))),
        _ => Err(Ground::NoEntry),
    }
}

/// "Reads at most 64 commands, the asked one included, none that starts past it or
/// outside the list." 3: "a command it reads is cut"; 24: "no command read starts at the
/// place".
fn walk(list: &[u8], start: usize, marks: Marks, asked: usize) -> Result<Asked, Ground> {
    let end = list.len() / WORD_BYTES;
    let (mut at, mut marks) = (start, marks);
    for read in 1..=COMMANDS {
        if at > asked || at >= end {
            break;
        }
        let word = word_at(list, at);
        let after = at + words_from(word);
        if after > end {
            return Err(Ground::CutCommand);
        }
        if at == asked {
            return Ok(Asked { marks, read });
        }
        marks = marks.after(command_number(word));
        at = after;
    }
    Err(Ground::NothingStartsThere)
}

/// Replaces the command at a place, and renews the entries after it. "Replacement refuses
/// first as building does, then as a question; then 3, new command cut; 25, lengths
/// differ." Entries of another list may lead a question into a command: where no command
/// of this one starts, 24 (our reading).
pub fn replace(
    list: &mut [u8],
    entries: &mut [u32],
    place: u32,
    new: &[u8],
) -> Result<(), Refusal> {
    judge_building(list, entries.len())?;
    ask(list, entries, place)?;
    let asked = place as usize;
    let refused = |ground| Refusal::new(ground, asked);
    if !starts_at(list, asked) {
        return Err(refused(Ground::NothingStartsThere));
    }
    let new_command = decode(new).map_err(|_| refused(Ground::CutCommand))?;
    let count = words(new_command.number);
    if count != words_from(word_at(list, asked)) {
        return Err(refused(Ground::LengthsDiffer));
    }
    let bytes = WORD_BYTES * asked..WORD_BYTES * (asked + count);
    list[bytes].copy_from_slice(&new[..WORD_BYTES * count]);
    renew(list, entries, place);
    Ok(())
}

/// Whether a command starts at a place, from the first command on.
fn starts_at(list: &[u8], place: usize) -> bool {
    let mut at = 0;
    while at < place {
        at += words_from(word_at(list, at));
    }
    at == place
}

/// "Afterwards all later entries equal those built from nothing, and entries up to that
/// command, its own included, are untouched." Which are later is decided by the places
/// of the entries built from nothing.
fn renew(list: &[u8], entries: &mut [u32], place: u32) {
    let lent = entries.chunks_exact_mut(ENTRY);
    for (entry, built) in lent.zip(entries_of(list)) {
        if built[0] > place {
            entry.copy_from_slice(&built);
        }
    }
}
