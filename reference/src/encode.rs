//! Encoding of a single command.

use crate::answer::{Ground, Refusal};
use crate::fields::fields_of;
use crate::kinds::{
    base_words, has_shade, has_texture, has_zbuffer, kind, suffix_words, words, Kind,
};
use crate::words::{write_word, WORD_BYTES};

const NOT_ENCODABLE: Refusal = Refusal {
    ground: Ground::NotEncodable,
    place: 0,
};

/// Writes the command with this number under its own name, as the number alone says
/// which command it is.
pub fn encode(
    number: u32,
    fields: &[u64],
    suffix: &[u8],
    out: &mut [u8],
) -> Result<usize, Refusal> {
    let name = six_bits(number).map(kind).ok_or(NOT_ENCODABLE)?;
    encode_as(name, number, fields, suffix, out)
}

/// Writes the command with this name, this number, these fields (in the order of 000's
/// bit lines) and this suffix; answers the words written. "Encoding: 15, then 14;
/// else it answers 0 and the words written." Unused bits are zero.
pub fn encode_as(
    name: Kind,
    number: u32,
    fields: &[u64],
    suffix: &[u8],
    out: &mut [u8],
) -> Result<usize, Refusal> {
    let number = encodable(name, number, fields, suffix).ok_or(NOT_ENCODABLE)?;
    let needed = words(number);
    if out.len() < needed * WORD_BYTES {
        return Err(Refusal::new(Ground::OutputTooShort, needed));
    }
    let base = base_of(number, fields);
    for (place, word) in base.iter().enumerate() {
        write_word(out, place, *word);
    }
    out[base.len() * WORD_BYTES..needed * WORD_BYTES].copy_from_slice(suffix);
    Ok(needed)
}

fn six_bits(number: u32) -> Option<u8> {
    u8::try_from(number).ok().filter(|number| *number < 64)
}

/// The command number, if none of ground 15's reasons holds. Request #107: "ground 15
/// judges each name by its own numbers".
fn encodable(name: Kind, number: u32, fields: &[u64], suffix: &[u8]) -> Option<u8> {
    let number = six_bits(number).filter(|number| kind(*number) == name)?;
    let lines = fields_of(number);
    let due = suffix_words(number) * WORD_BYTES;
    let all_fit = || {
        lines
            .iter()
            .zip(fields)
            .all(|(line, value)| line.fits(*value))
    };
    let sound = fields.len() == lines.len()
        && all_fit()
        && flags_agree(number, fields)
        && suffix.len() == due;
    sound.then_some(number)
}

/// A triangle's first three fields repeat bits of its number.
fn flags_agree(number: u8, fields: &[u64]) -> bool {
    let flags = [has_shade(number), has_texture(number), has_zbuffer(number)];
    kind(number) != Kind::Triangle || fields[..3] == flags.map(u64::from)
}

/// The words of a command that hold its number and its fields.
fn base_of(number: u8, fields: &[u64]) -> Vec<u64> {
    let mut base = vec![0; base_words(number)];
    base[0] = u64::from(number) << 56;
    for (line, value) in fields_of(number).iter().zip(fields) {
        line.write(&mut base, *value);
    }
    base
}
