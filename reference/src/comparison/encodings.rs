//! Encodings: commands with right fields, and with something wrong.

use crate::comparison::calls::{Call, Function};
use crate::comparison::cases::room;
use crate::comparison::lent::Lent;
use crate::comparison::rng::Rng;
use crate::decode::decode;
use crate::fields::{fields_of, Field};
use crate::kinds::{suffix_words, words};
use crate::words::{bytes_of, mask, WORD_BYTES};

/// Encoding of every number in turn, half of them with something wrong.
pub fn encode_call(rng: &mut Rng, case: u64) -> Call {
    let number = (case % 64) as u8;
    let fields = random_fields(rng, number);
    let suffix = rng.bytes(suffix_words(number) * WORD_BYTES);
    let mut call = Call {
        number: u32::from(number),
        suffix: Lent::of(rng, &suffix),
        fields: Lent::of_numbers(rng, &fields),
        out: room(rng, words(number) * WORD_BYTES, WORD_BYTES),
        ..Call::of(Function::Encode)
    };
    if rng.one_in(2) {
        spoil_encoding(rng, &mut call);
    }
    call
}

/// The fields of a command with random bits, some of them at an end of their
/// range.
fn random_fields(rng: &mut Rng, number: u8) -> Vec<u64> {
    let mut command: Vec<u64> = (0..words(number)).map(|_| rng.number()).collect();
    command[0] = command[0] & !(0x3F << 56) | u64::from(number) << 56;
    let mut fields = decode(&bytes_of(&command)).expect("whole").fields;
    for (field, value) in fields_of(number).iter().zip(&mut fields) {
        let is_flag = field.high > 55 && field.word == 0;
        if !is_flag && rng.one_in(6) {
            *value = rng.pick(&range(field));
        }
    }
    fields
}

/// The least and the greatest value of a field.
fn range(field: &Field) -> [u64; 2] {
    if field.signed {
        let most = mask(field.width() - 1);
        [!most, most]
    } else {
        [0, mask(field.width())]
    }
}

/// Makes one thing of an encoding wrong, or perhaps wrong.
fn spoil_encoding(rng: &mut Rng, call: &mut Call) {
    match rng.below(7) {
        0 => spoil_field(rng, call),
        1 => spoil_field_by_one(rng, call),
        2 => spoil_flag(rng, call),
        3 => spoil_count(rng, call),
        4 => spoil_suffix(rng, call),
        5 => {
            let high = (rng.number() as u32).max(64);
            let beyond = call.number + 256;
            call.number = rng.pick(&[64, 64 + call.number, beyond, u32::MAX, high]);
        }
        _ => call.number = rng.below(64) as u32,
    }
}

/// A field with any value.
fn spoil_field(rng: &mut Rng, call: &mut Call) {
    if !call.fields.is_empty() {
        let index = rng.below(call.fields.len() as u64) as usize;
        let value = rng.number() >> rng.below(64);
        call.fields.slice_mut()[index] = value;
    }
}

/// One of the first three fields changed by one bit: in a triangle a flag that
/// contradicts the number.
fn spoil_flag(rng: &mut Rng, call: &mut Call) {
    let index = rng.below(3) as usize;
    if let Some(flag) = call.fields.slice_mut().get_mut(index) {
        *flag ^= 1;
    }
}

/// A field just below or above its range.
fn spoil_field_by_one(rng: &mut Rng, call: &mut Call) {
    if !call.fields.is_empty() {
        let index = rng.below(call.fields.len() as u64) as usize;
        let [least, most] = range(&fields_of(call.number as u8)[index]);
        call.fields.slice_mut()[index] = rng.pick(&[least.wrapping_sub(1), most.wrapping_add(1)]);
    }
}

/// One field too few or a few too many.
fn spoil_count(rng: &mut Rng, call: &mut Call) {
    let mut fields = call.fields.slice().to_vec();
    if rng.one_in(2) {
        fields.pop();
    } else {
        fields.resize(fields.len() + rng.between(1, 3) as usize, 0);
    }
    call.fields = Lent::of_numbers(rng, &fields);
}

/// A suffix that is a byte or a word too short or too long, or absent.
fn spoil_suffix(rng: &mut Rng, call: &mut Call) {
    let due = call.suffix.len();
    let length = rng.pick(&[
        0,
        due.saturating_sub(1),
        due.saturating_sub(WORD_BYTES),
        due + 1,
        due + WORD_BYTES,
    ]);
    call.suffix = Lent::random(rng, length);
}
