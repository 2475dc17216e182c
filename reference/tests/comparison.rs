//! The comparison itself: the reference agrees with itself and reaches every
//! ground, and a second side with one fault is found out.

use std::collections::BTreeSet;

use reference::answer::Ground;
use reference::check::check;
use reference::comparison::calls::Function;
use reference::comparison::laws::sync_cycles;
use reference::comparison::lists::list;
use reference::comparison::rng::Rng;
use reference::comparison::run::{run, Difference};
use reference::comparison::side::{Reference, Side};
use reference::decode::suffix;
use reference::differences::ENTRY;
use reference::display::{walk, MOST_CALLS};
use reference::kinds::{base_words, commands, is_draw, is_textured_draw, is_unassigned, Command};
use reference::record::{pack, unpack, Record, NUMBERS};
use reference::repair::without_syncs;
use reference::stream::{MOST_TOTAL, ROOM};
use reference::texture::TEXTURE_BYTES;
use reference::view::Image;
use reference::words::{bits, command_number, word_at, write_word};

const SEED: u64 = 7;
const CASES: u64 = 4_000;

#[test]
fn the_reference_agrees_with_itself() {
    let counts = run(&Reference, SEED, 0..CASES).unwrap_or_else(|difference| {
        panic!("{difference}");
    });
    assert_eq!(counts.missing(), []);
    assert!(counts.searched > 500, "{}", counts.searched);
}

/// Each unassigned number is refused by 19 in some case.
#[test]
fn every_unassigned_number_is_reached() {
    let refused = |case| {
        let list = list(&mut Rng::of_case(SEED, case), case);
        let refusal = check(&list).outcome.err()?;
        let number = || command_number(word_at(&list, refusal.place));
        (refusal.ground == Ground::UnassignedNumber).then(number)
    };
    let numbers: BTreeSet<u8> = (0..2 * CASES).filter_map(refused).collect();
    assert!(numbers
        .into_iter()
        .eq((0..64).filter(|n| is_unassigned(*n))));
}

/// One fault of a second side that is right otherwise.
#[derive(Clone, Copy, Debug, PartialEq)]
enum Fault {
    /// The place is one off at ground 9.
    PlaceAtGround9,
    /// The cause is the first draw of the list and not the latest.
    FirstDraw,
    /// At ground 8 the cause is the latest draw, textured or not.
    AnyDraw,
    /// At ground 8 a load is no cause where a textured draw came before it.
    LoadNoCause,
    /// Over the limit the cause is the words that a list may have.
    WordsOverLimit,
    /// An unassigned number is a no operation where nothing else is refused.
    UnassignedPasses,
    /// One painted byte is wrong.
    MemoryByte,
    /// A refused draw has written one byte.
    MemoryAtRefusal,
    /// One byte of texture memory is wrong.
    TextureByte,
    /// A refused load has written one byte.
    TextureAtRefusal,
    /// A byte too many of texture memory is taken for right.
    TextureLonger,
    /// A Load Block turns no word.
    DxtIgnored,
    /// A Load Block's row is in quarters.
    BlockQuarters,
    /// A Load Block of no texel or too many loads nothing.
    BlockUnjudged,
    /// The work buffer is not cleared.
    WorkKept,
    /// At ground 14 the output is written as far as it goes.
    OutputAtGround14,
    /// A byte after the words written is changed.
    OutputBeyond,
    /// The cycles are one too many.
    Cycles,
    /// A field after those of the command is changed.
    FieldBeyond,
    /// A signed field loses its sign.
    Sign,
    /// A command may be cut by one byte.
    CutCommand,
    /// Encoding refuses 14 before 15.
    EncodingOrder,
    /// A triangle's texture has two words.
    TextureWords,
    /// Bits 63:62 count as parts of the number.
    IgnoredBits,
    /// A flipped texture rectangle has one word.
    FlippedWord,
    /// A load leaves G as it is.
    LoadForgotten,
    /// A load leaves T as it is.
    LoadReadsNoTile,
    /// A missing sync is said to be required, but not to be missing.
    NotMissing,
    /// A command that misses a sync does not run.
    StepStops,
    /// The bits above the command number count.
    BitsAbove,
    /// A command is judged one byte early.
    OneByteEarly,
    /// A refusal is not remembered.
    RefusalForgotten,
    /// Held bytes are kept at a refusal.
    HeldKept,
    /// A remembered refusal comes before 28.
    DamageLate,
    /// A byte past the held ones is not looked at.
    ByteUnseen,
    /// At closing 3 comes before 2.
    ClosingOrder,
    /// A cut inside a word forgets the registers.
    RegisterLost,
    /// A refusal by the limit takes a word.
    LimitTaken,
    /// A Sync Full waits as long as a Sync Pipe.
    FullWaits,
    /// The total at 28 is the record's.
    TotalAtDamage,
    /// A total just above the limit is taken for a sound one.
    TotalUnseen,
    /// The spare bytes are cleared.
    SpareCleared,
    /// A remembered 19 is taken for damage.
    UnassignedDamages,
    /// A refused display list command counts as read.
    RefusedRead,
    /// At 14 the commands read are not told.
    ReadAtGround14,
    /// Half-words are not counted.
    HalfWordsUncounted,
    /// Data beyond shift and count are dropped.
    DataMasked,
    /// An eighth call is refused.
    EighthCall,
    /// A refused call is told by its target.
    TargetTold,
    /// Of a going's parameter the lowest bit counts.
    ParameterBit,
    /// Going for good returns.
    ForGoodReturns,
    /// 22 and 23 come before 21.
    LimitLate,
    /// 21 comes before 20.
    LimitEarly,
    /// A cut display list command is read as if zeros followed.
    CutRead,
    /// Bits 63:62 of a display list command are kept.
    TopBitsKept,
    /// The second repair keeps the syncs present.
    SyncsKept,
    /// The second repair counts only the commands that remain.
    RemainingCounted,
    /// The second repair tells what it added to the waiting.
    AddedTold,
    /// The low half of an entry's bits comes first.
    LowHalfFirst,
    /// Bits that are no field's count too.
    UnusedBitsCount,
    /// The unused lines of Set Other Modes take no bit.
    LinesUncounted,
    /// A triangle's suffix does not count.
    SuffixUnseen,
    /// The second list is judged first.
    SecondFirst,
    /// The rest is always the first list's.
    RestOfFirst,
    /// At 14 the rest is that of a success.
    RestAtGround14,
    /// An entry has the marks after its command.
    MarksAfter,
    /// The asked command is not counted as read.
    AskedUncounted,
    /// A question starts at the first entry.
    FirstEntry,
    /// The search for an entry stops at the first one beyond.
    SearchStops,
    /// A question reads 65 commands.
    SixtyFifthRead,
    /// Of an entry's marks the low four bits count.
    MarksUnjudged,
    /// Later entries are not renewed.
    EntriesKept,
    /// The entry of the replaced command is renewed too.
    OwnEntryRenewed,
    /// The list keeps its command.
    CommandKept,
    /// 25 comes before 3 of the new command.
    LengthFirst,
    /// A five-bit channel becomes 8v.
    ChannelDark,
    /// The alpha bit becomes 0 or 1.
    AlphaBit,
    /// The alpha of an 8-bit value is that value.
    ValueAlpha,
    /// An image at the very end of memory is refused.
    LastByteRefused,
    /// An image too wide is refused only where it lies inside memory.
    SizeLate,
}

/// The reference with one fault.
struct Faulty(Fault);

/// An answer with another third number.
fn with_third(answer: u64, third: usize) -> u64 {
    answer & !(0xFF_FFFF << 32) | (third as u64) << 32
}

/// The places of the draws before the place of an answer.
fn draws(list: &[u8], answer: u64) -> impl Iterator<Item = usize> + '_ {
    places(list, answer, is_draw)
}

fn textured_draws(list: &[u8], answer: u64) -> impl Iterator<Item = usize> + '_ {
    places(list, answer, is_textured_draw)
}

/// The places of the commands of a kind before the place of an answer.
fn places(
    list: &[u8],
    answer: u64,
    is_of_kind: fn(u8) -> bool,
) -> impl Iterator<Item = usize> + '_ {
    commands(list)
        .take_while(move |command| command.place < answer as u32 as usize)
        .filter(move |command| is_of_kind(command.number()))
        .map(|command| command.place)
}

fn ground(answer: u64) -> u64 {
    answer >> 56
}

fn flip_last(bytes: &mut [u8]) {
    if let Some(byte) = bytes.last_mut() {
        *byte ^= 0xFF;
    }
}

impl Side for Faulty {
    fn check(&self, list: &[u8]) -> u64 {
        let answer = Reference.check(list);
        let cause = match (self.0, ground(answer)) {
            (Fault::PlaceAtGround9, 9) => return answer + 1,
            (Fault::UnassignedPasses, 19) => return Reference.check(&vec![0; list.len()]),
            (Fault::FirstDraw, 9) => draws(list, answer).next(),
            (Fault::AnyDraw, 8) => draws(list, answer).last(),
            (Fault::LoadNoCause, 8) => textured_draws(list, answer).last(),
            (Fault::WordsOverLimit, 1) => Some(4_096),
            _ => None,
        };
        cause.map_or(answer, |cause| with_third(answer, cause))
    }

    fn repair(&self, list: &[u8], work: &mut [u8], out: &mut [u8]) -> u64 {
        let received = work.to_vec();
        let answer = Reference.repair(list, work, out);
        let written = answer as u32 as usize * 8;
        match (self.0, ground(answer)) {
            (Fault::WorkKept, 0) => work.copy_from_slice(&received),
            (Fault::OutputAtGround14, 14) => flip_last(out),
            (Fault::OutputBeyond, 0) => flip_last(&mut out[written..]),
            (Fault::Cycles, 0) => return answer + (1 << 32),
            _ => {}
        }
        answer
    }

    fn draw(&self, list: &[u8], memory: &mut [u8], start: u64, texture: &mut [u8]) -> u64 {
        let taken = match self.0 {
            Fault::TextureLonger => texture.len().min(TEXTURE_BYTES),
            _ => texture.len(),
        };
        let list = with_other_blocks(self.0, list);
        let answer = Reference.draw(&list, memory, start, &mut texture[..taken]);
        match (self.0, ground(answer)) {
            (Fault::TextureByte, 0) | (Fault::TextureAtRefusal, 18) => flip_last(texture),
            (Fault::MemoryByte, 0) | (Fault::MemoryAtRefusal, 12) => flip_last(memory),
            _ => {}
        }
        answer
    }

    fn decode(&self, list: &[u8], fields: &mut [u64]) -> u64 {
        if self.0 == Fault::CutCommand && list.len() % 8 == 7 {
            return Reference.decode(&[list, &[0]].concat(), fields);
        }
        let answer = Reference.decode(list, fields);
        let written = if ground(answer) == 0 {
            answer as u32
        } else {
            0
        };
        let (command, beyond) = fields.split_at_mut(written as usize);
        match self.0 {
            Fault::FieldBeyond => beyond.iter_mut().for_each(|field| *field = 0),
            Fault::Sign => command
                .iter_mut()
                .for_each(|field| *field &= 0x7FFF_FFFF_FFFF_FFFF),
            _ => {}
        }
        answer
    }

    fn encode(&self, number: u32, fields: &[u64], suffix: &[u8], out: &mut [u8]) -> u64 {
        if self.0 == Fault::EncodingOrder && out.is_empty() {
            return 14 << 56 | 1;
        }
        Reference.encode(number, fields, suffix, out)
    }

    fn words(&self, first_word: u64) -> u64 {
        let words = Reference.words(first_word);
        match (self.0, command_number(first_word)) {
            (Fault::TextureWords, 0x0A | 0x0B | 0x0E | 0x0F) => words - 6,
            (Fault::IgnoredBits, _) if first_word >> 62 != 0 => 1,
            (Fault::FlippedWord, 0x25) => 1,
            _ => words,
        }
    }

    fn step(&self, hazards: u32, number: u32) -> u64 {
        let answer = Reference.step(hazards, number);
        let missing = answer >> 34 & 1 != 0;
        match self.0 {
            Fault::LoadForgotten if matches!(number % 64, 0x30 | 0x33 | 0x34) => {
                answer & !8 | u64::from(hazards) & 8
            }
            Fault::LoadReadsNoTile if matches!(number % 64, 0x30 | 0x33 | 0x34) => {
                answer & !2 | u64::from(hazards) & 2
            }
            Fault::NotMissing => answer & !(4 << 32),
            Fault::StepStops if missing => answer & 7 << 32 | u64::from(hazards % 16),
            Fault::BitsAbove if number >= 64 => Reference.step(hazards, 0),
            _ => answer,
        }
    }

    fn feed(&self, record: &mut Record, portion: &[u8]) -> u64 {
        if is_overlooked(self.0, record) {
            return u64::from(unpack(record).remembered.number) << 56;
        }
        faulty_feed(self.0, record, portion)
    }

    fn close(&self, record: &mut Record) -> u64 {
        faulty_close(self.0, record)
    }

    fn translate(&self, memory: &[u8], start: u32, out: &mut [u8]) -> u64 {
        faulty_translate(self.0, memory, start, out)
    }

    fn repair_afresh(&self, list: &[u8], work: &mut [u8], out: &mut [u8]) -> u64 {
        match self.0 {
            Fault::SyncsKept => Reference.repair(list, work, out),
            Fault::RemainingCounted if check(list).outcome.is_ok() => {
                Reference.repair_afresh(&without_syncs(list), work, out)
            }
            Fault::AddedTold => told_added(list, Reference.repair_afresh(list, work, out)),
            _ => Reference.repair_afresh(list, work, out),
        }
    }

    fn compare(&self, first: &[u8], second: &[u8], entries: &mut [u32]) -> u64 {
        faulty_compare(self.0, first, second, entries)
    }

    fn rest(&self, first: &[u8], second: &[u8], count: usize) -> u64 {
        let answer = Reference.rest(first, second, count);
        match (self.0, ground(answer)) {
            (Fault::RestOfFirst, _) => with_third(answer, 0),
            (Fault::RestAtGround14, 14) => 14 << 56 | Reference.rest(first, second, usize::MAX),
            _ => answer,
        }
    }

    fn index_build(&self, list: &[u8], entries: &mut [u32]) -> u64 {
        let answer = Reference.index_build(list, entries);
        if self.0 == Fault::MarksAfter && ground(answer) == 0 {
            for entry in entries.chunks_exact_mut(2).take(answer as usize) {
                let number = command_number(word_at(list, entry[0] as usize));
                entry[1] = Reference.step(entry[1], number.into()) as u32;
            }
        }
        answer
    }

    fn index_ask(&self, list: &[u8], entries: &[u32], place: u32) -> u64 {
        let entries = with_other_entries(self.0, entries, place);
        let answer = Reference.index_ask(list, &entries, place);
        match (self.0, ground(answer)) {
            (Fault::AskedUncounted, 0) => answer - (16 << 32),
            (Fault::SixtyFifthRead, 24) => asked_one_further(list, &entries, place, answer),
            _ => answer,
        }
    }

    fn index_replace(&self, list: &mut [u8], entries: &mut [u32], place: u32, new: &[u8]) -> u64 {
        faulty_replace(self.0, list, entries, place, new)
    }

    fn view(&self, memory: &[u8], start: u64, image: Image, out: &mut [u8]) -> u64 {
        faulty_view(self.0, memory, start, image, out)
    }
}

/// An image viewed with one fault, most often in its first pixel.
fn faulty_view(fault: Fault, memory: &[u8], start: u64, image: Image, out: &mut [u8]) -> u64 {
    let taken = match fault {
        Fault::LastByteRefused => memory.len().saturating_sub(1),
        _ => memory.len(),
    };
    let answer = Reference.view(&memory[..taken], start, image, out);
    match (fault, ground(answer), image.size) {
        (Fault::ChannelDark, 0, 2) => out[0] &= 0xF8,
        (Fault::AlphaBit, 0, 2) => out[3] &= 1,
        (Fault::ValueAlpha, 0, 1) => out[3] = out[0],
        (Fault::SizeLate, 27, 1..=3) if memory.is_empty() || image.address < start => {
            return 12 << 56;
        }
        _ => {}
    }
    answer
}

/// Entries as a question with one fault sees them.
fn with_other_entries(fault: Fault, entries: &[u32], place: u32) -> Vec<u32> {
    let mut seen: Vec<[u32; 2]> = entries.as_chunks().0.to_vec();
    match fault {
        Fault::FirstEntry => seen.truncate(1),
        Fault::SearchStops => {
            let beyond = seen.iter().position(|entry| entry[0] > place);
            seen.truncate(beyond.unwrap_or(seen.len()));
        }
        Fault::MarksUnjudged => seen.iter_mut().for_each(|entry| entry[1] &= 15),
        _ => {}
    }
    seen.as_flattened().to_vec()
}

/// A question's answer where the start may be one command later, if there is one then.
fn asked_one_further(list: &[u8], entries: &[u32], place: u32, answer: u64) -> u64 {
    let start = entries.chunks_exact(2).rfind(|entry| entry[0] <= place);
    let start = start.expect("26 comes before 24");
    if start[0] as usize >= list.len() / 8 {
        return answer;
    }
    let word = word_at(list, start[0] as usize);
    let later = start[0] + Reference.words(word) as u32;
    let marks = Reference.step(start[1], command_number(word).into()) as u32;
    let further = Reference.index_ask(list, &[later, marks], place);
    if ground(further) == 0 {
        further + (16 << 32)
    } else {
        answer
    }
}

/// A command replaced with one fault.
fn faulty_replace(
    fault: Fault,
    list: &mut [u8],
    entries: &mut [u32],
    place: u32,
    new: &[u8],
) -> u64 {
    let (list_before, entries_before) = (list.to_vec(), entries.to_vec());
    let answer = Reference.index_replace(list, entries, place, new);
    let is_own = |entry: &&mut [u32]| entry[0] == place;
    match (fault, ground(answer)) {
        (Fault::EntriesKept, 0) => entries.copy_from_slice(&entries_before),
        (Fault::OwnEntryRenewed, 0) => {
            let own = entries.chunks_exact_mut(2).find(is_own);
            own.into_iter().for_each(|entry| entry[1] ^= 1);
        }
        (Fault::CommandKept, 0) => list.copy_from_slice(&list_before),
        (Fault::LengthFirst, 3) if new.len() < 8 => return 25 << 56 | u64::from(place),
        _ => {}
    }
    answer
}

/// Two lists compared with one fault.
fn faulty_compare(fault: Fault, first: &[u8], second: &[u8], entries: &mut [u32]) -> u64 {
    let second = match fault {
        Fault::SuffixUnseen => with_suffixes_of(first, second),
        _ => second.to_vec(),
    };
    let answer = Reference.compare(first, &second, entries);
    let written = answer as u32 as usize;
    let only_unused_bits = answer == 0 && first.len() == second.len() && first != second;
    match fault {
        Fault::LowHalfFirst if ground(answer) == 0 => {
            let entries = entries[..written].chunks_exact_mut(ENTRY);
            entries.for_each(|entry| entry.swap(2, 3));
        }
        Fault::LinesUncounted if ground(answer) == 0 => {
            let is_modes = |at: u32| command_number(word_at(first, at as usize)) == 0x2F;
            let entries = entries[..written].chunks_exact_mut(ENTRY);
            let modes = entries.filter(|entry| is_modes(entry[0]));
            modes.for_each(without_unused_lines);
        }
        Fault::UnusedBitsCount if only_unused_bits => return 14 << 56 | 4,
        Fault::SecondFirst if matches!(ground(answer), 1..=3) => {
            return Reference.compare(&second, first, entries);
        }
        _ => {}
    }
    answer
}

/// The bits of an entry of Set Other Modes without those of its unused lines.
fn without_unused_lines(entry: &mut [u32]) {
    let all = u64::from(entry[2]) << 32 | u64::from(entry[3]);
    let used = (0..64).filter(|bit| ![1, 17, 26].contains(bit));
    let packed = used
        .enumerate()
        .fold(0, |packed, (at, bit)| packed | (all >> bit & 1) << at);
    (entry[2], entry[3]) = ((packed >> 32) as u32, packed as u32);
}

/// The second list, where a triangle stands in both, with the suffixes of the first.
fn with_suffixes_of(first: &[u8], second: &[u8]) -> Vec<u8> {
    let mut other = second.to_vec();
    for (left, right) in commands(first).zip(commands(second)) {
        let suffix = suffix(&first[8 * left.place..]);
        let at = 8 * (right.place + base_words(right.number()));
        let room = other.get_mut(at..at + suffix.len());
        if let Some(room) = room.filter(|_| left.number() == right.number()) {
            room.copy_from_slice(suffix);
        }
    }
    other
}

/// A second repair's answer that tells the cycles beyond those of the list.
fn told_added(list: &[u8], answer: u64) -> u64 {
    let cycles = (answer >> 32) as u32 & 0xFF_FFFF;
    let added = cycles.saturating_sub(sync_cycles(list));
    with_third(answer, added as usize)
}

/// A list as a side with a fault in its Load Blocks draws it.
fn with_other_blocks(fault: Fault, list: &[u8]) -> Vec<u8> {
    let mut other = list.to_vec();
    let is_block = |command: &Command| command.number() == 0x33;
    for Command { place, word } in commands(list).filter(is_block) {
        let texels = bits(word, 23, 12) as i64 + 1 - bits(word, 55, 44) as i64;
        let word = match fault {
            Fault::DxtIgnored => word & !0xFFF,
            Fault::BlockQuarters => word & !(0xFFF << 32) | bits(word, 43, 34) << 32,
            Fault::BlockUnjudged if !(1..=2_048).contains(&texels) => word ^ 1 << 56,
            _ => word,
        };
        write_word(&mut other, place, word);
    }
    other
}

/// A display list translated with one fault.
fn faulty_translate(fault: Fault, memory: &[u8], start: u32, out: &mut [u8]) -> u64 {
    let read = with_other_words(fault, memory);
    let answer = Reference.translate(&read, start, out);
    let place = answer as u32 as usize;
    let one_read = 1 << 32;
    match (fault, ground(answer)) {
        (Fault::RefusedRead, 20..=23) => answer + one_read,
        (Fault::ReadAtGround14, 14) => with_third(answer, 0),
        (Fault::HalfWordsUncounted, 0) => {
            let rectangles = (0..place).filter(|at| matches!(out[8 * at], 0x24 | 0x25));
            answer - 2 * rectangles.count() as u64 * one_read
        }
        (Fault::LimitLate, 21) if matches!(memory[place], 0xE1 | 0xF1) => answer + (1 << 56),
        (Fault::LimitEarly, 20) if answer >> 32 & 0xFF_FFFF == 4_096 => answer + (1 << 56),
        (Fault::EighthCall, 0) if walk(memory, start).deepest == MOST_CALLS => 23 << 56,
        (Fault::TargetTold, 23) if memory[place] == 0xDE => {
            answer | word_at(memory, place / 8) & 0xFFFF_FFFF
        }
        (Fault::TopBitsKept, 0) if place > 0 => {
            out[0] |= 0xC0;
            answer
        }
        _ => answer,
    }
}

/// Drops the data of a change of the other modes that lie beyond its shift and count.
fn mask_data(word: &mut [u8]) {
    let (shift, count) = (u32::from(word[2]), u32::from(word[3]) + 1);
    if shift + count <= 32 {
        let kept = ((1u64 << count) - 1) << (32 - shift - count);
        let data = word_at(word, 0) & kept;
        word[4..].copy_from_slice(&(data as u32).to_be_bytes());
    }
}

/// The memory as a side with a fault reads it.
fn with_other_words(fault: Fault, memory: &[u8]) -> Vec<u8> {
    let mut read = memory.to_vec();
    if fault == Fault::CutRead {
        read.resize(memory.len().next_multiple_of(8), 0);
    }
    for word in read.chunks_exact_mut(8) {
        match (fault, word[0]) {
            (Fault::DataMasked, 0xE2 | 0xE3) => mask_data(word),
            (Fault::ParameterBit, 0xDE) => word[1] &= 1,
            (Fault::ForGoodReturns, 0xDE) if word[1] == 1 => word[1] = 0,
            _ => {}
        }
    }
    read
}

/// A stream fed with one fault.
fn faulty_feed(fault: Fault, record: &mut Record, portion: &[u8]) -> u64 {
    let before = unpack(record);
    let answer = Reference.feed(record, portion);
    let mut stream = unpack(record);
    let refused = stream.remembered.number != 0 && before.remembered.number == 0;
    match fault {
        Fault::OneByteEarly if stream.held % 8 == 7 => drop(stream.feed(&[0])),
        Fault::RefusalForgotten if refused => stream.remembered = Default::default(),
        Fault::HeldKept if refused => {
            stream.room[0] = 0x24;
            stream.held = 1;
            stream.taken += 1;
        }
        Fault::RegisterLost if !stream.held.is_multiple_of(8) => {
            stream.state.registers = Default::default()
        }
        Fault::LimitTaken if refused && stream.remembered.number == 1 => stream.taken += 8,
        Fault::FullWaits if stream.state.after_sync_full && !before.state.after_sync_full => {
            stream.total += 50
        }
        Fault::TotalAtDamage if ground(answer) == 28 => {
            return answer | u64::from(stream.total & 0xFF_FFFF) << 32
        }
        Fault::UnassignedDamages if before.remembered.number == 19 => return 28 << 56,
        Fault::SpareCleared => record[NUMBERS - 1] &= 0xFFFF_FFFF_0000_FFFF,
        _ => return answer,
    }
    pack(&stream, record);
    answer
}

/// A stream closed with one fault.
fn faulty_close(fault: Fault, record: &mut Record) -> u64 {
    let stream = unpack(record);
    let (held, taken) = (stream.held, stream.taken);
    if fault == Fault::ClosingOrder && !stream.is_damaged() && held > 7 && taken % 8 != 0 {
        return 3 << 56 | ((taken - held) / 8) as u64;
    }
    Reference.close(record)
}

/// A damaged record that a side with a fault takes for a sound one.
fn is_overlooked(fault: Fault, record: &Record) -> bool {
    let mut stream = unpack(record);
    if !stream.is_damaged() {
        return false;
    }
    match fault {
        Fault::DamageLate => matches!(stream.remembered.number, 1..=9),
        Fault::ByteUnseen => {
            stream.room[ROOM - 1] = 0;
            !stream.is_damaged()
        }
        Fault::TotalUnseen => stream.total == MOST_TOTAL + 1,
        _ => false,
    }
}

/// The difference that the comparison reports of a fault.
fn found(fault: Fault) -> Difference {
    match run(&Faulty(fault), SEED, 0..CASES) {
        Ok(_) => panic!("{fault:?} was not found"),
        Err(difference) => *difference,
    }
}

#[test]
fn every_fault_is_found_in_its_function() {
    let faults = [
        (Fault::PlaceAtGround9, Function::Check),
        (Fault::FirstDraw, Function::Check),
        (Fault::AnyDraw, Function::Check),
        (Fault::LoadNoCause, Function::Check),
        (Fault::WordsOverLimit, Function::Check),
        (Fault::UnassignedPasses, Function::Check),
        (Fault::MemoryByte, Function::Draw),
        (Fault::MemoryAtRefusal, Function::Draw),
        (Fault::TextureByte, Function::Draw),
        (Fault::TextureAtRefusal, Function::Draw),
        (Fault::TextureLonger, Function::Draw),
        (Fault::DxtIgnored, Function::Draw),
        (Fault::BlockQuarters, Function::Draw),
        (Fault::BlockUnjudged, Function::Draw),
        (Fault::WorkKept, Function::Repair),
        (Fault::OutputAtGround14, Function::Repair),
        (Fault::OutputBeyond, Function::Repair),
        (Fault::Cycles, Function::Repair),
        (Fault::FieldBeyond, Function::Decode),
        (Fault::Sign, Function::Decode),
        (Fault::CutCommand, Function::Words),
        (Fault::EncodingOrder, Function::Encode),
        (Fault::TextureWords, Function::Words),
        (Fault::IgnoredBits, Function::Words),
        (Fault::FlippedWord, Function::Words),
        (Fault::OneByteEarly, Function::Stream),
        (Fault::RefusalForgotten, Function::Stream),
        (Fault::HeldKept, Function::Stream),
        (Fault::DamageLate, Function::Stream),
        (Fault::ByteUnseen, Function::Stream),
        (Fault::ClosingOrder, Function::Stream),
        (Fault::RegisterLost, Function::Stream),
        (Fault::LimitTaken, Function::Stream),
        (Fault::FullWaits, Function::Stream),
        (Fault::TotalAtDamage, Function::Stream),
        (Fault::TotalUnseen, Function::Stream),
        (Fault::SpareCleared, Function::Stream),
        (Fault::UnassignedDamages, Function::Stream),
        (Fault::RefusedRead, Function::Translate),
        (Fault::ReadAtGround14, Function::Translate),
        (Fault::HalfWordsUncounted, Function::Translate),
        (Fault::DataMasked, Function::Translate),
        (Fault::EighthCall, Function::Translate),
        (Fault::TargetTold, Function::Translate),
        (Fault::ParameterBit, Function::Translate),
        (Fault::ForGoodReturns, Function::Translate),
        (Fault::LimitLate, Function::Translate),
        (Fault::LimitEarly, Function::Translate),
        (Fault::CutRead, Function::Translate),
        (Fault::TopBitsKept, Function::Translate),
        (Fault::SyncsKept, Function::Afresh),
        (Fault::RemainingCounted, Function::Afresh),
        (Fault::AddedTold, Function::Afresh),
        (Fault::LowHalfFirst, Function::Compare),
        (Fault::UnusedBitsCount, Function::Compare),
        (Fault::LinesUncounted, Function::Compare),
        (Fault::SuffixUnseen, Function::Compare),
        (Fault::SecondFirst, Function::Compare),
        (Fault::RestOfFirst, Function::Rest),
        (Fault::RestAtGround14, Function::Rest),
        (Fault::MarksAfter, Function::IndexBuild),
        (Fault::AskedUncounted, Function::IndexAsk),
        (Fault::FirstEntry, Function::IndexAsk),
        (Fault::SearchStops, Function::IndexAsk),
        (Fault::SixtyFifthRead, Function::IndexAsk),
        (Fault::MarksUnjudged, Function::IndexAsk),
        (Fault::EntriesKept, Function::IndexReplace),
        (Fault::OwnEntryRenewed, Function::IndexReplace),
        (Fault::CommandKept, Function::IndexReplace),
        (Fault::LengthFirst, Function::IndexReplace),
        (Fault::ChannelDark, Function::View),
        (Fault::AlphaBit, Function::View),
        (Fault::ValueAlpha, Function::View),
        (Fault::LastByteRefused, Function::View),
        (Fault::SizeLate, Function::View),
    ];
    for (fault, function) in faults {
        assert_eq!(found(fault).call.function, function, "{fault:?}");
    }
}

/// By a step alone, or by the steps along a list that was checked.
#[test]
fn every_fault_of_a_step_is_found() {
    let faults = [
        Fault::LoadForgotten,
        Fault::LoadReadsNoTile,
        Fault::NotMissing,
        Fault::StepStops,
        Fault::BitsAbove,
    ];
    for fault in faults {
        let function = found(fault).call.function;
        let by_steps = matches!(function, Function::Step | Function::Check);
        assert!(by_steps, "{fault:?}");
    }
}

#[test]
fn a_difference_names_all_that_repeats_it() {
    let difference = found(Fault::PlaceAtGround9);
    assert_eq!(difference.reference.place + 1, difference.other.place);
    let case = difference.case;
    let again = run(&Faulty(Fault::PlaceAtGround9), SEED, case..case + 1);
    assert_eq!(
        again.expect_err("differs").to_string(),
        difference.to_string()
    );
    let report = difference.to_string();
    assert!(report.starts_with("check: the answers differ\nseed 7, case "));
    assert!(report.contains("reference: number 9, place "));
}

#[test]
fn a_wrong_byte_is_named_with_its_buffer() {
    let difference = found(Fault::MemoryByte);
    let last = difference.call.memory.len() - 1;
    assert_eq!(
        difference.what,
        format!("buffer memory differs first at {last}")
    );
}
