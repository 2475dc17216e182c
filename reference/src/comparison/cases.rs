//! The calls of a case: its list or command, and buffers that are just enough,
//! too short or longer.

use crate::answer::Ground;
use crate::check::{check, walk, Syncs};
use crate::comparison::calls::{Call, Function};
use crate::comparison::displays::display;
use crate::comparison::encodings::encode_call;
use crate::comparison::indices::Index;
use crate::comparison::lent::Lent;
use crate::comparison::pairs::pair;
use crate::comparison::portions::Portions;
use crate::comparison::rng::Rng;
use crate::comparison::views::Viewed;
use crate::decode::decode;
use crate::differences::{compare, ENTRY};
use crate::display::walk as walk_display;
use crate::draw::{works, Work};
use crate::index::{entries_of, ENTRY as ENTRY_NUMBERS};
use crate::kinds::{commands, Command};
use crate::repair::{least_plan, with_plan, without_syncs, REPAIR_LIMIT, WORK_BYTES};
use crate::texture::TEXTURE_BYTES;
use crate::view::view;
use crate::words::WORD_BYTES;

/// All calls of a case.
pub fn calls(rng: &mut Rng, case: u64, list: &[u8]) -> Vec<Call> {
    let place = rng.below(list.len() as u64 / 8 + 1) as usize;
    let tail = &list[place * WORD_BYTES..];
    let [compare_call, rest_call] = pair_calls(rng, case, list);
    let [build_call, ask_call, replace_call] = index_calls(rng, list);
    vec![
        check_call(rng, list),
        decode_call(rng, list),
        decode_call(rng, tail),
        encode_call(rng, case),
        repair_call(rng, Function::Repair, list, <[u8]>::to_vec),
        draw_call(rng, list),
        words_call(rng, case),
        step_call(rng, case),
        stream_call(rng, list),
        translate_call(rng, case),
        afresh_call(rng, list),
        compare_call,
        rest_call,
        build_call,
        ask_call,
        replace_call,
        view_call(rng),
    ]
}

fn check_call(rng: &mut Rng, list: &[u8]) -> Call {
    Call {
        list: Lent::of(rng, list),
        ..Call::of(Function::Check)
    }
}

/// The words of every command number in turn, with any other bits.
fn words_call(rng: &mut Rng, case: u64) -> Call {
    Call {
        word: rng.number() & !(0x3F << 56) | (case % 64) << 56,
        ..Call::of(Function::Words)
    }
}

/// The step of every command number from each of the sixteen sums of marks in turn,
/// half of them with bits above.
fn step_call(rng: &mut Rng, case: u64) -> Call {
    let above = rng.pick(&[0, u32::MAX]);
    Call {
        hazards: (rng.number() as u32 & above) << 4 | (case / 64 % 16) as u32,
        number: (rng.number() as u32 & above) << 6 | (case % 64) as u32,
        ..Call::of(Function::Step)
    }
}

/// The list in portions, now and then with damage to the record between two of them.
fn stream_call(rng: &mut Rng, list: &[u8]) -> Call {
    Call {
        list: Lent::of(rng, list),
        portions: Portions::random(rng, list.len()),
        ..Call::of(Function::Stream)
    }
}

/// Decoding with exactly enough fields, one less, more, or none.
fn decode_call(rng: &mut Rng, list: &[u8]) -> Call {
    let needed = decode(list).map_or(0, |decoded| decoded.fields.len());
    let more = rng.below(40) as usize;
    let count = rng.pick(&[needed, needed, needed.saturating_sub(1), needed + more, 0]);
    Call {
        list: Lent::of(rng, list),
        fields: Lent::random_numbers(rng, count),
        ..Call::of(Function::Decode)
    }
}

/// A buffer for `needed` bytes.
pub fn room(rng: &mut Rng, needed: usize, step: usize) -> Lent<u8> {
    let length = length_near(rng, needed, step);
    Lent::random(rng, length)
}

/// A length: exactly enough, one or a step too short, more than enough, or zero.
fn length_near(rng: &mut Rng, needed: usize, step: usize) -> usize {
    let more = rng.between(1, 64) as usize;
    match rng.below(12) {
        0 => needed.saturating_sub(1),
        1 => needed.saturating_sub(step),
        2..=4 => needed + more,
        5 if rng.one_in(2) => 0,
        _ => needed,
    }
}

/// A repair of a list, of which the commands that remain are given syncs.
fn repair_call(rng: &mut Rng, function: Function, list: &[u8], remaining: Remaining) -> Call {
    let (work, out) = repair_needs(list, remaining).unwrap_or_else(|| {
        let most = 2 * list.len() as u64 + 16;
        (rng.below(most) as usize, rng.below(most) as usize)
    });
    Call {
        list: Lent::of(rng, list),
        work: room(rng, work, WORK_BYTES),
        out: room(rng, out, WORD_BYTES),
        ..Call::of(function)
    }
}

/// The bytes of work buffer and output that a repair needs, unless it is refused
/// on grounds 1 to 6.
fn repair_needs(list: &[u8], remaining: Remaining) -> Option<(usize, usize)> {
    let walked = walk(list, REPAIR_LIMIT, Syncs::PassedOver);
    walked.outcome.ok()?;
    let remaining = remaining(list);
    let given: Vec<Command> = commands(&remaining).collect();
    let written = with_plan(&remaining, &given, &least_plan(&given).adds);
    Some((commands(list).count() * WORK_BYTES, written.len()))
}

type Remaining = fn(&[u8]) -> Vec<u8>;

/// A second repair, half of them of a list with more syncs.
fn afresh_call(rng: &mut Rng, list: &[u8]) -> Call {
    let fuller = full_of_syncs(rng, list);
    let list = rng.pick(&[list, &fuller]);
    repair_call(rng, Function::Afresh, list, without_syncs)
}

/// "Old lists are full of Sync Pipe", and here of others too, with any other bits.
fn full_of_syncs(rng: &mut Rng, list: &[u8]) -> Vec<u8> {
    let mut fuller = Vec::new();
    let mut copied = 0;
    for command in commands(list) {
        let at = command.place * WORD_BYTES;
        fuller.extend_from_slice(&list[copied..at]);
        copied = at;
        if rng.one_in(3) {
            let number = rng.pick(&[0x26, 0x27, 0x27, 0x27, 0x28]);
            let sync = rng.number() & !(0x3F << 56) | number << 56;
            fuller.extend(sync.to_be_bytes());
        }
    }
    fuller.extend_from_slice(&list[copied..]);
    fuller
}

/// The longest memory that a case lends.
const MOST_MEMORY: u64 = 8 << 20;

/// Memory that a case may lend from address 0 on.
const LOW_MEMORY: u64 = 64 << 10;

fn draw_call(rng: &mut Rng, list: &[u8]) -> Call {
    let (start, length) = match touched(list) {
        Some((first, last)) => memory_for(rng, first, last),
        None => memory_anywhere(rng),
    };
    Call {
        list: Lent::of(rng, list),
        start,
        memory: Lent::random(rng, length.min(MOST_MEMORY) as usize),
        texture: texture_memory(rng),
        ..Call::of(Function::Draw)
    }
}

/// Texture memory, seldom of a wrong length.
fn texture_memory(rng: &mut Rng) -> Lent<u8> {
    let wrong = rng.pick(&[
        0,
        8,
        TEXTURE_BYTES - 1,
        TEXTURE_BYTES + 1,
        2 * TEXTURE_BYTES,
    ]);
    let length = if rng.one_in(16) { wrong } else { TEXTURE_BYTES };
    Lent::random(rng, length)
}

/// The first and the last address that a list's draws and loads write or read up to
/// grounds 10, 11 and 17, if it passes the check and touches any.
fn touched(list: &[u8]) -> Option<(u64, u64)> {
    check(list).outcome.ok()?;
    let refusal = works(list, |_| None).err();
    let end = refusal.map_or(list.len(), |refusal| refusal.place * WORD_BYTES);
    let works = works(&list[..end], |_| None).ok()?;
    let first = works.iter().flat_map(Work::addresses).min()?;
    let last = works.iter().flat_map(Work::addresses).max()?;
    Some((first, last))
}

/// A start and a length for draws and loads that touch bytes from `first` to `last`.
fn memory_for(rng: &mut Rng, first: u64, last: u64) -> (u64, u64) {
    let before = first.saturating_sub(rng.below(80));
    let slack = rng.below(80);
    let near_end = u64::MAX - rng.below(100);
    let low = last < LOW_MEMORY;
    match rng.below(40) {
        0..=5 => (first, last + 1 - first),
        6 | 7 => (first, last - first),
        8 | 9 => (first + 1, last - first),
        10 | 11 if low => (0, last + 1),
        12 if low => (0, last),
        18 => (first, 0),
        19 => (before, slack),
        20 => (near_end, slack),
        // If sums of the start wrapped, all that is touched would lie inside.
        21 | 22 if low => (near_end, last + 200),
        21..=23 => (rng.number(), slack),
        _ => (before, last + 1 - before + slack),
    }
}

/// Memory for a list that writes nothing.
fn memory_anywhere(rng: &mut Rng) -> (u64, u64) {
    let near_end = u64::MAX - rng.below(100);
    let any = rng.number();
    (rng.pick(&[0, 0, near_end, any]), rng.below(100))
}

/// A display list, with room for what is written up to a refusal.
fn translate_call(rng: &mut Rng, case: u64) -> Call {
    let display = display(rng, case);
    let written = walk_display(&display.memory, display.start).words.len();
    Call {
        start: display.start.into(),
        memory: Lent::of(rng, &display.memory),
        out: room(rng, written * WORD_BYTES, WORD_BYTES),
        ..Call::of(Function::Translate)
    }
}

/// Two lists compared, and the rest of the longer one.
fn pair_calls(rng: &mut Rng, case: u64, list: &[u8]) -> [Call; 2] {
    let (first, second) = pair(rng, case, list);
    let needed = compare(&first, &second, &mut []).map_or_else(|refusal| refusal.place, |_| 0);
    let count = length_near(rng, needed, ENTRY);
    let call = |rng: &mut Rng, function| Call {
        list: Lent::of(rng, &first),
        second: Lent::of(rng, &second),
        ..Call::of(function)
    };
    let compare = Call {
        entries: Lent::random_numbers(rng, count),
        ..call(rng, Function::Compare)
    };
    let count = if rng.one_in(20) { usize::MAX } else { count };
    let rest = Call {
        count,
        ..call(rng, Function::Rest)
    };
    [compare, rest]
}

/// Entries built, a question, and a replacement. The last two are of lists of their own.
fn index_calls(rng: &mut Rng, list: &[u8]) -> [Call; 3] {
    let [built, asked, replaced] = [(); 3].map(|()| Index::random(rng, list));
    let new = replaced.replacement(rng);
    let needed = ENTRY_NUMBERS * entries_of(&built.list).len();
    let count = length_near(rng, needed, ENTRY_NUMBERS);
    let call = |rng: &mut Rng, function, index: &Index| Call {
        list: Lent::of(rng, &index.list),
        entries: Lent::of_numbers(rng, &index.entries),
        place: index.place,
        ..Call::of(function)
    };
    [
        Call {
            entries: Lent::random_numbers(rng, count),
            ..call(rng, Function::IndexBuild, &built)
        },
        call(rng, Function::IndexAsk, &asked),
        Call {
            second: Lent::of(rng, &new),
            ..call(rng, Function::IndexReplace, &replaced)
        },
    ]
}

/// An image in memory, with room for its rows.
fn view_call(rng: &mut Rng) -> Call {
    let viewed = Viewed::random(rng);
    let memory = viewed.memory(rng);
    let needed = match view(memory.slice(), viewed.start, viewed.image, &mut []) {
        Err(refusal) if refusal.ground == Ground::OutputTooShort => refusal.place,
        _ => 40,
    };
    Call {
        start: viewed.start,
        image: viewed.image,
        memory,
        out: room(rng, needed, 4),
        ..Call::of(Function::View)
    }
}
