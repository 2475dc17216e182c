//! Request #103: 01's examples in portions, the limits, and 28's reasons.

mod common;

use common::{after_setup, command, whole, C, L, N, R, S};
use common::{SYNC_FULL, SYNC_LOAD, SYNC_PIPE, SYNC_TILE};
use reference::check::check;
use reference::comparison::portions::Damage;
use reference::comparison::rng::Rng;
use reference::packed;
use reference::record::{bytes_of as record_bytes, pack, record_of, unpack, NUMBERS, SPARE};
use reference::stream::{Stream, Told, DAMAGED, REASONS};
use reference::words::bytes_of;

fn told(number: u32, place: u32) -> Told {
    Told { number, place }
}

/// A list in portions of a length, then closed.
fn fed(list: &[u8], portion: usize) -> (Told, Stream) {
    let mut stream = Stream::default();
    for part in list.chunks(portion) {
        stream.feed(part);
        stream.feed(&[]);
    }
    (stream.close(), stream)
}

/// Every cutting ends in this answer and in one record.
fn ends(list: &[u8], number: u32, place: u32) -> Stream {
    let (answer, stream) = fed(list, list.len().max(1));
    assert_eq!(answer, told(number, place));
    for portion in [1, 3, 7, 8, 9, 64, 175, 176] {
        assert_eq!(fed(list, portion), (answer, stream.clone()), "{portion}");
    }
    stream
}

#[test]
fn examples_end_as_the_check_does() {
    let lists = [
        vec![],
        vec![command(0x24)],
        whole(0x0F)[..21].to_vec(),
        whole(0x0F),
        vec![SYNC_FULL, N],
        after_setup(&[R, C]),
        after_setup(&[R, SYNC_PIPE, C]),
        after_setup(&[C, R]),
        after_setup(&[R, L, C]),
        after_setup(&[R, N, C]),
        after_setup(&[R, command(0x31), C]),
        vec![SYNC_FULL, command(0x31)],
    ];
    for words in lists {
        let list = bytes_of(&words);
        let checked = check(&list);
        let (number, place) = common::answer(checked.outcome);
        let stream = ends(&list, number.into(), place as u32);
        assert_eq!(stream.state.marks, checked.marks);
        assert_eq!(stream.state.registers, checked.registers);
    }
}

#[test]
fn closing_gives_2_then_3() {
    ends(&[0; 7], 2, 0);
    ends(&bytes_of(&[command(0x24)])[..7], 2, 0);
    ends(&bytes_of(&[N, command(0x24), N])[..23], 2, 2);
    ends(&bytes_of(&[N, command(0x24)]), 3, 1);
}

#[test]
fn a_command_is_judged_with_its_last_byte() {
    let list = bytes_of(&after_setup(&[R, C]));
    let mut stream = Stream::default();
    assert_eq!(stream.feed(&list[..39]), told(0, 4));
    let mut before = Stream::default();
    before.feed(&list[..32]);
    assert_eq!(stream.feed(&list[39..]), told(9, 4));
    before.remembered = told(9, 4);
    assert_eq!(stream, before);
    assert_eq!(stream.feed(&list), told(9, 4));
    assert_eq!(stream.close(), told(9, 4));
    assert_eq!(stream, before);
}

#[test]
fn the_byte_past_the_limit_is_refused_and_no_empty_portion() {
    let list = vec![0; 32_769];
    let mut stream = Stream::default();
    assert_eq!(stream.feed(&list[..32_768]), told(0, 4_096));
    assert_eq!(stream.feed(&[]), told(0, 4_096));
    let mut full = stream.clone();
    assert_eq!(stream.feed(&[0]), told(1, 4_096));
    full.remembered = told(1, 4_096);
    assert_eq!(stream, full);
    ends(&list, 1, 4_096);
    // A command before the limit is judged first, one across it never.
    let mut words = vec![N; 4_100];
    words[4_095] = command(0x24);
    ends(&bytes_of(&words), 1, 4_096);
    words[4_094] = R;
    ends(&bytes_of(&words), 5, 4_094);
}

/// A stream of three words and 175 bytes of a triangle of 22 words.
fn triangle() -> Stream {
    let stream = triangle_after(24 + 175);
    assert_eq!((stream.held, stream.taken), (175, 24 + 175));
    stream
}

/// So many bytes of that list.
fn triangle_after(bytes: usize) -> Stream {
    let words = [S.to_vec(), whole(0x0F)].concat();
    let mut stream = Stream::default();
    assert_eq!(stream.feed(&bytes_of(&words)[..bytes]).number, 0);
    stream
}

#[test]
fn each_reason_of_28_is_refused_first_and_leaves_the_record() {
    let reasons: [fn(&mut Stream); 12] = [
        |stream| stream.held = 176,
        |stream| stream.room[175] = 1,
        |stream| stream.room[0] = 0x0E,
        |stream| stream.taken = 32_769,
        |stream| stream.taken = 174,
        |stream| stream.taken += 1,
        |stream| stream.held -= 1,
        |stream| stream.remembered.number = 10,
        |stream| stream.remembered.number = 18,
        |stream| stream.remembered.number = 20,
        |stream| stream.remembered.number = 28,
        |stream| stream.total = 204_801,
    ];
    for (index, damage) in reasons.iter().enumerate() {
        for number in [0, 1, 9, 19] {
            let mut stream = triangle();
            stream.remembered = told(number, 3);
            assert!(!stream.is_damaged());
            damage(&mut stream);
            let received = stream.clone();
            assert_eq!(stream.feed(&[0]), told(DAMAGED, 0), "reason {index}");
            assert_eq!(stream.close(), told(DAMAGED, 0), "reason {index}");
            assert_eq!(stream, received);
        }
    }
}

#[test]
fn a_record_holds_all_of_a_stream() {
    let (_, stream) = fed(&bytes_of(&after_setup(&[R, SYNC_PIPE, C, L, L])), 13);
    let mut record = [0; NUMBERS];
    pack(&stream, &mut record);
    assert_eq!(unpack(&record), stream);
    let mut fresh = [0; NUMBERS];
    pack(&Stream::default(), &mut fresh);
    assert!(record_bytes(&fresh).iter().all(|byte| *byte == 0));
}

/// A random damage shows each of 28's reasons, and each alone but the first: so many
/// held bytes always make a command.
#[test]
fn the_comparison_damages_records_in_each_way() {
    let mut rng = Rng::new(9);
    let mut seen = [false; REASONS];
    let mut alone = [false; REASONS];
    for case in 0..4_000 {
        let mut record = [0; NUMBERS];
        let held = [0, 24, 40, 100, 199][case % 5];
        pack(&triangle_after(held), &mut record);
        Damage::random(&mut rng).apply(&mut record);
        let reasons = unpack(&record).damage();
        let count = reasons.iter().filter(|holds| **holds).count();
        for (at, holds) in reasons.into_iter().enumerate() {
            seen[at] |= holds;
            alone[at] |= holds && count == 1;
        }
    }
    assert_eq!(seen, [true; REASONS]);
    assert_eq!(alone[1..], [true; REASONS - 1]);
}

/// Request #105, "25, 33, 50; Sync Full nothing": the total after each byte.
#[test]
fn the_total_is_that_of_the_commands_accepted_so_far() {
    let list = bytes_of(&[SYNC_LOAD, N, SYNC_TILE, SYNC_PIPE, SYNC_LOAD, SYNC_FULL]);
    let totals = [0, 25, 25, 58, 108, 133, 133];
    let mut stream = Stream::default();
    for (at, byte) in list.iter().enumerate() {
        assert_eq!(stream.total, totals[at / 8]);
        stream.feed(&[*byte]);
    }
    stream.close();
    assert_eq!(stream.total, 133);
}

/// A refused command's wait doesn't count, and the total stays.
#[test]
fn a_refusal_leaves_the_total() {
    let list = bytes_of(&[SYNC_PIPE, SYNC_FULL, SYNC_PIPE]);
    assert_eq!(ends(&list, 4, 2).total, 50);
    let list = bytes_of(&[SYNC_TILE, command(0x24)]);
    assert_eq!(ends(&list, 3, 1).total, 33);
    assert_eq!(ends(&list[..15], 2, 1).total, 33);
}

#[test]
fn the_longest_list_of_pipes_has_the_greatest_total() {
    let list = bytes_of(&vec![SYNC_PIPE; 4_096]);
    assert_eq!(ends(&list, 0, 4_096).total, 204_800);
}

/// A record that is not from a fresh one passes the limit in one call; the next one
/// gives 28.
#[test]
fn the_total_is_by_plain_addition() {
    let mut stream = Stream {
        total: 204_800,
        ..Stream::default()
    };
    let list = bytes_of(&[SYNC_PIPE, SYNC_TILE]);
    assert_eq!(stream.feed(&list), told(0, 2));
    assert_eq!(stream.total, 204_883);
    let received = stream.clone();
    assert_eq!(stream.feed(&[]), told(DAMAGED, 0));
    assert_eq!(stream.close(), told(DAMAGED, 0));
    assert_eq!(stream, received);
}

/// "The third number of feed and close is the record's total after the call, 0 at
/// 28"; the spare bytes stay.
#[test]
fn totals_in_c() {
    let mut bytes = [0; 8 * NUMBERS];
    bytes[SPARE..SPARE + 2].copy_from_slice(&[0xAB, 0xCD]);
    let mut record = record_of(&bytes);
    let list = bytes_of(&[SYNC_LOAD, SYNC_TILE, command(0x24)]);
    assert_eq!(packed::feed(&mut record, &list[..15]), 25 << 32 | 1);
    assert_eq!(packed::feed(&mut record, &list[15..]), 58 << 32 | 2);
    assert_eq!(packed::close(&mut record), 3 << 56 | 58 << 32 | 2);
    assert_eq!(packed::feed(&mut record, &list), 3 << 56 | 58 << 32 | 2);
    let mut bytes = record_bytes(&record);
    assert_eq!(bytes[SPARE..], [0xAB, 0xCD, 58, 0, 0, 0]);
    bytes[SPARE + 2..].copy_from_slice(&204_801u32.to_ne_bytes());
    let mut record = record_of(&bytes);
    assert_eq!(packed::feed(&mut record, &[]), 28 << 56);
    assert_eq!(packed::close(&mut record), 28 << 56);
    assert_eq!(record_bytes(&record), bytes);
}
