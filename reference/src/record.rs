//! A stream's record as a caller in C owns it: 57 numbers of 64 bits. All but the
//! words of the registers lies where the library has it; these are here in an order
//! of this crate's own.

use crate::marks::Marks;
use crate::registers::{Registers, WORDS};
use crate::stream::{Stream, Told, ROOM};

/// The 64-bit numbers of a record.
pub const NUMBERS: usize = 57;

/// The bytes of a record.
pub const BYTES: usize = 8 * NUMBERS;

/// Where each part lies, in bytes.
pub const HELD: usize = 8 * WORDS;
pub const HELD_COUNT: usize = HELD + ROOM;
pub const TAKEN: usize = HELD_COUNT + 4;
pub const NUMBER: usize = TAKEN + 4;
pub const PLACE: usize = NUMBER + 4;
pub const HAZARDS: usize = PLACE + 4;
pub const ENDED: usize = HAZARDS + 1;
/// No call reads these two bytes, and every call leaves them as they are.
pub const SPARE: usize = ENDED + 1;
pub const TOTAL: usize = SPARE + 2;

/// A record as numbers.
pub type Record = [u64; NUMBERS];

/// A record's bytes.
pub fn bytes_of(record: &Record) -> [u8; BYTES] {
    let mut bytes = [0; BYTES];
    for (chunk, number) in bytes.chunks_mut(8).zip(record) {
        chunk.copy_from_slice(&number.to_ne_bytes());
    }
    bytes
}

/// The record with these bytes.
pub fn record_of(bytes: &[u8; BYTES]) -> Record {
    let number = |at: usize| u64::from_ne_bytes(part(bytes, 8 * at));
    std::array::from_fn(number)
}

fn part<const N: usize>(bytes: &[u8], at: usize) -> [u8; N] {
    bytes[at..at + N].try_into().expect("the part lies inside")
}

fn number_at(bytes: &[u8], at: usize) -> u32 {
    u32::from_ne_bytes(part(bytes, at))
}

/// The held bytes of a damaged record may be said to be more than there is room for:
/// one too many stands for them all.
pub fn unpack(record: &Record) -> Stream {
    let bytes = bytes_of(record);
    let mut stream = Stream {
        room: part(&bytes, HELD),
        held: (number_at(&bytes, HELD_COUNT) as usize).min(ROOM),
        taken: number_at(&bytes, TAKEN) as usize,
        remembered: Told {
            number: number_at(&bytes, NUMBER),
            place: number_at(&bytes, PLACE),
        },
        total: number_at(&bytes, TOTAL),
        ..Stream::default()
    };
    stream.state.marks = Marks::of_sum(u32::from(bytes[HAZARDS]));
    stream.state.after_sync_full = bytes[ENDED] != 0;
    stream.state.registers = Registers::of_words(&record[..WORDS]);
    stream
}

/// Lays a stream that is not damaged into a record.
pub fn pack(stream: &Stream, record: &mut Record) {
    let mut bytes = bytes_of(record);
    let mut put = |at: usize, number: u32| bytes[at..at + 4].copy_from_slice(&number.to_ne_bytes());
    put(HELD_COUNT, stream.held as u32);
    put(TAKEN, stream.taken as u32);
    put(NUMBER, stream.remembered.number);
    put(PLACE, stream.remembered.place);
    put(TOTAL, stream.total);
    bytes[HELD..HELD_COUNT].copy_from_slice(&stream.room);
    bytes[HAZARDS] = stream.state.marks.sum() as u8;
    bytes[ENDED] = stream.state.after_sync_full.into();
    *record = record_of(&bytes);
    record[..WORDS].copy_from_slice(&stream.state.registers.words());
}
