//! The answers as the C functions give them, each in one 64-bit number: bits
//! 63:56 the number, bits 31:0 the place (words written, at 0), bits 55:32 the
//! third number (cause for check, cycles for repairs, command number for decode,
//! sync for step, total waiting for streams, commands read for translate, the list for
//! rest, marks and commands read for a question, else 0). Only the words of a command
//! are a plain count.

use crate::answer::{Ground, Refusal};
use crate::kinds::{words_from, Sync};
use crate::marks::Marks;
use crate::record::{self, Record};
use crate::repair::Repaired;
use crate::stream::{Stream, Told, DAMAGED};
use crate::view::Image;
use crate::{check, decode, differences, display, draw, encode, index, repair, view};

/// An answer in its three parts.
#[derive(Clone, Copy, Debug, PartialEq, Eq)]
pub struct Answer {
    pub number: u8,
    pub place: u32,
    pub third: u32,
}

impl Answer {
    pub fn pack(self) -> u64 {
        assert!(self.third < 1 << 24, "the third number has 24 bits");
        u64::from(self.number) << 56 | u64::from(self.third) << 32 | u64::from(self.place)
    }

    pub fn unpack(packed: u64) -> Answer {
        Answer {
            number: (packed >> 56) as u8,
            place: packed as u32,
            third: (packed >> 32) as u32 & 0xFF_FFFF,
        }
    }
}

fn packed(number: u8, place: usize, third: u32) -> u64 {
    let place = u32::try_from(place).expect("a place has 32 bits");
    Answer {
        number,
        place,
        third,
    }
    .pack()
}

fn accepted(place: usize, third: u32) -> u64 {
    packed(0, place, third)
}

/// A refusal's third number is 0, but for the check's, a stream's and a translation's.
fn refused(refusal: Refusal) -> u64 {
    packed(refusal.ground as u8, refusal.place, 0)
}

/// The greatest third number. As a cause it stands for that and more.
const MOST_THIRD: usize = 0xFF_FFFF;

/// An answer that has its third number at refusals too.
fn told_always(outcome: Result<usize, Refusal>, third: usize) -> u64 {
    let third = third.min(MOST_THIRD) as u32;
    match outcome {
        Ok(place) => accepted(place, third),
        Err(refusal) => packed(refusal.ground as u8, refusal.place, third),
    }
}

/// `lanyardrove_check`.
pub fn check(list: &[u8]) -> u64 {
    let checked = check::check(list);
    told_always(checked.outcome, checked.cause)
}

/// `lanyardrove_repair`.
pub fn repair(list: &[u8], work: &mut [u8], out: &mut [u8]) -> u64 {
    repaired(repair::repair(list, work, out))
}

/// `lanyardrove_repair_afresh`.
pub fn repair_afresh(list: &[u8], work: &mut [u8], out: &mut [u8]) -> u64 {
    repaired(repair::repair_afresh(list, work, out))
}

fn repaired(outcome: Result<Repaired, Refusal>) -> u64 {
    match outcome {
        Ok(repaired) => accepted(repaired.words, repaired.cycles),
        Err(refusal) => refused(refusal),
    }
}

/// `lanyardrove_draw`.
pub fn draw(list: &[u8], memory: &mut [u8], start: u64, texture: &mut [u8]) -> u64 {
    match draw::draw(list, memory, start, texture) {
        Ok(words) => accepted(words, 0),
        Err(refusal) => refused(refusal),
    }
}

/// `lanyardrove_decode`: 3 as decoding, then 14 with the count needed.
pub fn decode(list: &[u8], fields: &mut [u64]) -> u64 {
    let decoded = match decode::decode(list) {
        Ok(decoded) => decoded,
        Err(refusal) => return refused(refusal),
    };
    let count = decoded.fields.len();
    if fields.len() < count {
        return refused(Refusal::new(Ground::OutputTooShort, count));
    }
    fields[..count].copy_from_slice(&decoded.fields);
    accepted(count, u32::from(decoded.number))
}

/// `lanyardrove_encode`.
pub fn encode(number: u32, fields: &[u64], suffix: &[u8], out: &mut [u8]) -> u64 {
    match encode::encode(number, fields, suffix, out) {
        Ok(words) => accepted(words, 0),
        Err(refusal) => refused(refusal),
    }
}

/// `lanyardrove_words`: a plain count, never refused.
pub fn words(first_word: u64) -> u64 {
    words_from(first_word) as u64
}

/// What a missing sync adds to its number in a step's third number.
const MISSING: u32 = 4;

/// `lanyardrove_step`: the marks after a command, as if it ran, and the sync that it
/// requires, which then is missing. Of the marks the low four bits count, of the
/// number the low six.
pub fn step(hazards: u32, number: u32) -> u64 {
    let marks = Marks::of_sum(hazards);
    let number = (number % 64) as u8;
    let third = match marks.missing_sync(number) {
        Some(sync) => sync_number(sync) + MISSING,
        None => 0,
    };
    accepted(marks.after(number).sum() as usize, third)
}

fn sync_number(sync: Sync) -> u32 {
    match sync {
        Sync::Load => 1,
        Sync::Tile => 2,
        Sync::Pipe => 3,
        Sync::Full => unreachable!("no command needs a Sync Full"),
    }
}

/// `lanyardrove_stream_feed`.
pub fn feed(record: &mut Record, portion: &[u8]) -> u64 {
    called(record, |stream| stream.feed(portion))
}

/// `lanyardrove_stream_close`.
pub fn close(record: &mut Record) -> u64 {
    called(record, Stream::close)
}

/// A call on a record, which is written only where the stream has changed.
fn called(record: &mut Record, call: impl FnOnce(&mut Stream) -> Told) -> u64 {
    let before = record::unpack(record);
    let mut stream = before.clone();
    let answer = call(&mut stream);
    if stream != before {
        record::pack(&stream, record);
    }
    told(answer, stream.total)
}

/// The third number is the total after the call, but 0 at 28.
fn told(answer: Told, total: u32) -> u64 {
    let third = if answer.number == DAMAGED { 0 } else { total };
    packed(answer.number as u8, answer.place as usize, third)
}

/// `lanyardrove_translate`: "the number read is part of the answer".
pub fn translate(memory: &[u8], start: u32, out: &mut [u8]) -> u64 {
    let translated = display::translate(memory, start, out);
    told_always(translated.outcome, translated.read)
}

/// `lanyardrove_compare`: the place is the numbers written, or needed at 14.
pub fn compare(first: &[u8], second: &[u8], entries: &mut [u32]) -> u64 {
    match differences::compare(first, second, entries) {
        Ok(numbers) => accepted(numbers, 0),
        Err(refusal) => refused(refusal),
    }
}

/// `lanyardrove_rest`: the number that comparing gives, the first byte of the rest as the
/// place, and the list that it is of as the third number.
pub fn rest(first: &[u8], second: &[u8], count: usize) -> u64 {
    let (rest, outcome) = differences::rest(first, second, count);
    let number = outcome.map_or_else(|refusal| refusal.ground as u8, |()| 0);
    packed(number, rest.first_byte, rest.of_second.into())
}

/// `lanyardrove_index_build`: the place is the entries, also those needed at 14.
pub fn index_build(list: &[u8], entries: &mut [u32]) -> u64 {
    match index::build(list, entries) {
        Ok(count) => accepted(count, 0),
        Err(refusal) => refused(refusal),
    }
}

/// `lanyardrove_index_ask`: the third number is the marks and 16 times the commands read.
pub fn index_ask(list: &[u8], entries: &[u32], place: u32) -> u64 {
    match index::ask(list, entries, place) {
        Ok(asked) => accepted(place as usize, asked.marks.sum() + 16 * asked.read as u32),
        Err(refusal) => refused(refusal),
    }
}

/// `lanyardrove_index_replace`.
pub fn index_replace(list: &mut [u8], entries: &mut [u32], place: u32, new: &[u8]) -> u64 {
    match index::replace(list, entries, place, new) {
        Ok(()) => accepted(place as usize, 0),
        Err(refusal) => refused(refusal),
    }
}

/// `lanyardrove_view`: the place is the bytes written, or needed at 14.
pub fn view(memory: &[u8], start: u64, image: Image, out: &mut [u8]) -> u64 {
    match view::view(memory, start, image, out) {
        Ok(bytes) => accepted(bytes, 0),
        Err(refusal) => refused(refusal),
    }
}
