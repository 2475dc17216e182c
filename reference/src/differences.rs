//! Request #110: two lists compared, command by command from the first.

use crate::answer::{Ground, Refusal};
use crate::check::decodes;
use crate::decode::{decode, suffix};
use crate::fields::{fields_of, Field};
use crate::kinds::{commands, Command};
use crate::words::{bits, WORD_BYTES};

/// "A lent buffer of 32-bit numbers, four an entry."
pub const ENTRY: usize = 4;

/// Part of one of the two lists: from this byte to its end.
#[derive(Clone, Copy, Debug, PartialEq, Eq)]
pub struct Rest {
    pub of_second: bool,
    pub first_byte: usize,
}

/// Writes the commands that differ; answers the numbers written.
pub fn compare(first: &[u8], second: &[u8], entries: &mut [u32]) -> Result<usize, Refusal> {
    let numbers = differences(first, second, entries.len())?;
    entries[..numbers.len()].copy_from_slice(&numbers);
    Ok(numbers.len())
}

/// "The rest of the longer one", where so many numbers were lent for the entries. "A
/// refusal hands back the empty end of the first list."
pub fn rest(first: &[u8], second: &[u8], count: usize) -> (Rest, Result<(), Refusal>) {
    let outcome = differences(first, second, count).map(drop);
    let rest = match outcome {
        Ok(()) => longer_rest(first, second),
        Err(_) => end_of(first),
    };
    (rest, outcome)
}

/// "With equal counts it is the empty end of the first."
fn longer_rest(first: &[u8], second: &[u8]) -> Rest {
    let in_both = commands(first).count().min(commands(second).count());
    let part = |list, of_second| {
        let after: Option<Command> = commands(list).nth(in_both);
        after.map(|command| Rest {
            of_second,
            first_byte: command.place * WORD_BYTES,
        })
    };
    part(first, false)
        .or(part(second, true))
        .unwrap_or(end_of(first))
}

fn end_of(first: &[u8]) -> Rest {
    Rest {
        of_second: false,
        first_byte: first.len(),
    }
}

/// The entries, four numbers each, for which there is room in so many. "Grounds 1, 2 and
/// 3 refuse, the first list first"; "14 comes last, its place the numbers needed".
fn differences(first: &[u8], second: &[u8], room: usize) -> Result<Vec<u32>, Refusal> {
    decodes(first)?;
    decodes(second)?;
    let pairs = commands(first).zip(commands(second));
    let entries = pairs.filter_map(|(left, right)| {
        let fields = differing_fields(from(first, left), from(second, right));
        let differs = left.number() != right.number() || fields != 0;
        differs.then(|| entry(left.place, right.place, fields))
    });
    let numbers: Vec<u32> = entries.flatten().collect();
    if numbers.len() > room {
        Err(Refusal::new(Ground::OutputTooShort, numbers.len()))
    } else {
        Ok(numbers)
    }
}

/// A list from a command on.
fn from(list: &[u8], command: Command) -> &[u8] {
    &list[command.place * WORD_BYTES..]
}

/// "The two places, then 64 bits, high half first."
fn entry(left: usize, right: usize, fields: u64) -> [u32; ENTRY] {
    let [high, low] = [bits(fields, 63, 32), bits(fields, 31, 0)];
    [left as u32, right as u32, high as u32, low as u32]
}

/// A bit for each field in which the first commands of two lists differ, "all zero when
/// the command numbers differ". "A triangle's suffix is one field, its last, and all its
/// bits count."
fn differing_fields(left: &[u8], right: &[u8]) -> u64 {
    let decoded = |list| decode(list).expect("grounds 1 to 3 were tested");
    let (first, second) = (decoded(left), decoded(right));
    if first.number != second.number {
        return 0;
    }
    let lines = fields_of(first.number);
    let differs = |index: &usize| first.fields[*index] != second.fields[*index];
    let bit = |index| index + unused_lines_above(first.number, &lines[index]);
    let fields = (0..lines.len()).filter(differs).map(bit);
    let suffixes = (suffix(left) != suffix(right)).then_some(lines.len());
    fields.chain(suffixes).fold(0, |mask, bit| mask | 1 << bit)
}

/// 000 has lines named `-` in Set Other Modes, at bits 54, 35:32 and 15. They are
/// counted with the wiki's lines, and are no fields.
fn unused_lines_above(number: u8, line: &Field) -> usize {
    const SET_OTHER_MODES: u8 = 0x2F;
    let unused = [54, 35, 15];
    let above = unused.iter().filter(|bit| **bit > line.high);
    if number == SET_OTHER_MODES {
        above.count()
    } else {
        0
    }
}
