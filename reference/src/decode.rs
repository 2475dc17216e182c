//! Decoding of a single command.

use crate::answer::{Ground, Refusal};
use crate::fields::fields_of;
use crate::kinds::{base_words, kind, words, Kind};
use crate::words::{command_number, word_at, WORD_BYTES};

/// A command's kind, which is its name, its number, and its fields in the order of
/// 000's bit lines. A no operation, an unassigned number and a sync have no fields.
#[derive(Clone, Debug, PartialEq, Eq)]
pub struct Decoded {
    pub name: Kind,
    pub number: u8,
    pub fields: Vec<u64>,
}

/// "A single command handed to decoding gives 3 at 0 if its words are cut or
/// there are none; bytes beyond them are not read."
pub fn decode(list: &[u8]) -> Result<Decoded, Refusal> {
    let number = whole_command(list).ok_or(Refusal::new(Ground::CutCommand, 0))?;
    let base: Vec<u64> = (0..base_words(number))
        .map(|place| word_at(list, place))
        .collect();
    let fields = fields_of(number)
        .iter()
        .map(|field| field.read(&base))
        .collect();
    Ok(Decoded {
        name: kind(number),
        number,
        fields,
    })
}

/// "The words after a triangle's base are handed back as the caller's own
/// bytes (an empty part if there are none)."
pub fn suffix(list: &[u8]) -> &[u8] {
    match whole_command(list) {
        Some(number) => &list[base_words(number) * WORD_BYTES..words(number) * WORD_BYTES],
        None => &[],
    }
}

/// The number of the first command, if all its words are there.
fn whole_command(list: &[u8]) -> Option<u8> {
    if list.len() < WORD_BYTES {
        return None;
    }
    let number = command_number(word_at(list, 0));
    (list.len() >= words(number) * WORD_BYTES).then_some(number)
}
