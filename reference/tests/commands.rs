//! Every command number: its kind, its words, its fields, and the way from
//! words to fields and back.

mod common;

use common::*;
use reference::answer::Ground;
use reference::comparison::rng::Rng;
use reference::decode::{decode, suffix};
use reference::encode::{encode, encode_as};
use reference::fields::fields_of;
use reference::kinds::{base_words, kind, suffix_words, words, Kind};
use reference::packed;
use reference::words::{bytes_of, mask};

/// A command with random bits everywhere but in its number.
fn random_command(rng: &mut Rng, number: u8) -> Vec<u64> {
    let mut command: Vec<u64> = (0..words(number)).map(|_| rng.number()).collect();
    command[0] = command[0] & !(0x3F << 56) | u64::from(number) << 56;
    command
}

/// The bits of a command's base that have a meaning.
fn used_bits(number: u8) -> Vec<u64> {
    let mut used = vec![0; base_words(number)];
    used[0] = 0x3F << 56;
    for field in fields_of(number) {
        used[field.word] |= mask(field.width()) << field.low;
    }
    used
}

#[test]
fn words_of_each_number() {
    let triangles = [4, 6, 12, 14, 12, 14, 20, 22];
    for number in 0..64u8 {
        let expected = match number {
            0x08..=0x0F => triangles[usize::from(number - 8)],
            0x24 | 0x25 => 2,
            _ => 1,
        };
        assert_eq!(words(number), expected, "{number:#04x}");
    }
}

#[test]
fn kinds_have_the_size_of_their_rows() {
    let count = |wanted: fn(Kind) -> bool| (0..64).filter(|number| wanted(kind(*number))).count();
    assert_eq!(count(|kind| kind == Kind::NoOperation), 1);
    assert_eq!(count(|kind| kind == Kind::Unassigned), 28);
    assert_eq!(count(|kind| kind == Kind::Triangle), 8);
    assert_eq!(count(|kind| kind == Kind::TextureRectangle), 2);
    assert_eq!(count(|kind| kind == Kind::FillRectangle), 1);
    assert_eq!(count(|kind| matches!(kind, Kind::Sync(_))), 4);
    assert_eq!(count(|kind| kind == Kind::Load), 3);
    assert_eq!(count(|kind| kind == Kind::SetTile), 1);
    assert_eq!(count(|kind| kind == Kind::Attribute), 11);
    assert_eq!(count(|kind| kind == Kind::Free), 5);
}

#[test]
fn fields_do_not_overlap() {
    for number in 0..64 {
        let mut seen = vec![0u64; base_words(number)];
        for field in fields_of(number) {
            let place = mask(field.width()) << field.low;
            assert_eq!(seen[field.word] & place, 0, "{number:#04x} {}", field.name);
            seen[field.word] |= place;
        }
    }
}

#[test]
fn encoding_what_was_decoded_clears_the_unused_bits() {
    let mut rng = Rng::new(1);
    for number in (0..64).cycle().take(6_400) {
        let command = random_command(&mut rng, number);
        let list = bytes_of(&command);
        let decoded = decode(&list).expect("whole");
        let mut out = vec![0xAA; list.len() + 3];
        let outcome = encode(u32::from(number), &decoded.fields, suffix(&list), &mut out);
        let mut expected = command.clone();
        for (word, used) in expected.iter_mut().zip(used_bits(number)) {
            *word &= used;
        }
        assert_eq!(outcome, Ok(words(number)));
        assert_eq!(out[..list.len()], bytes_of(&expected));
        assert_eq!(out[list.len()..], [0xAA; 3]);
    }
}

#[test]
fn decoding_what_was_encoded_gives_it_back() {
    let mut rng = Rng::new(2);
    for number in (0..64).cycle().take(6_400) {
        let fields = decode(&bytes_of(&random_command(&mut rng, number)))
            .expect("whole")
            .fields;
        let tail = rng.bytes(suffix_words(number) * 8);
        let mut out = vec![0; words(number) * 8];
        encode(u32::from(number), &fields, &tail, &mut out).expect("encodes");
        let decoded = decode(&out).expect("whole");
        assert_eq!((decoded.number, decoded.fields), (number, fields));
        assert_eq!(suffix(&out), tail);
    }
}

#[test]
fn signed_fields_are_twos_complement() {
    let mut words = vec![0; 4];
    words[0] = command(0x08) | 0x2000 << 32 | 0x1FFF << 16 | 0x3FFF;
    words[1] = 0x0800_8000_2000_8000;
    let fields = decode(&bytes_of(&words)).expect("whole").fields;
    assert_eq!(fields[6] as i64, -8_192);
    assert_eq!(fields[7] as i64, 8_191);
    assert_eq!(fields[8] as i64, -1);
    assert_eq!(fields[9] as i64, -2_048);
    assert_eq!(fields[10], 0x8000);
    assert_eq!(fields[11] as i64, -8_192);
    assert_eq!(fields[12], 0x8000);
}

#[test]
fn every_field_is_refused_just_beyond_its_bits() {
    for number in 0..64u8 {
        for (index, field) in fields_of(number).iter().enumerate() {
            let (least, most) = range(field.width(), field.signed);
            assert!(field.fits(least) && field.fits(most), "{}", field.name);
            for value in [least.wrapping_sub(1), most.wrapping_add(1)] {
                assert_eq!(encode_with(number, index, value), (15, 0));
            }
        }
    }
}

/// The least and the greatest value of a field.
fn range(width: u32, signed: bool) -> (u64, u64) {
    if signed {
        let half = 1u64 << (width - 1);
        (half.wrapping_neg(), half - 1)
    } else {
        (0, mask(width))
    }
}

/// Encodes a command of zeros in which one field has this value.
fn encode_with(number: u8, index: usize, value: u64) -> (u8, usize) {
    let mut zeros = vec![0; words(number)];
    zeros[0] = command(number);
    let mut fields = decode(&bytes_of(&zeros)).expect("whole").fields;
    fields[index] = value;
    let tail = vec![0; suffix_words(number) * 8];
    answer(encode(u32::from(number), &fields, &tail, &mut [0; 200]))
}

#[test]
fn encoding_refuses_15_before_14() {
    let fill = [8, 8, 4, 4];
    assert_eq!(encode(0x36, &fill, &[], &mut [0; 8]), Ok(1));
    let too_short = refused(Ground::OutputTooShort, 1);
    assert_eq!(encode(0x36, &fill, &[], &mut [0; 7]), too_short);
    let not_encodable = refused(Ground::NotEncodable, 0);
    assert_eq!(encode(0x36, &fill[..3], &[], &mut []), not_encodable);
    assert_eq!(encode(0x36, &fill, &[0; 8], &mut []), not_encodable);
    assert_eq!(encode(64, &[], &[], &mut []), not_encodable);
    assert_eq!(encode(256 + 0x36, &fill, &[], &mut []), not_encodable);
}

/// Request #107: "encoded under that name only".
#[test]
fn each_name_has_its_own_numbers() {
    for number in 0..64 {
        let decoded = decode(&bytes_of(&whole(number))).expect("whole");
        assert_eq!(decoded.name, kind(number));
        let names = [Kind::NoOperation, Kind::Unassigned];
        for name in names.into_iter().filter(|name| *name != kind(number)) {
            let outcome = encode_as(name, number.into(), &[], &[], &mut [0; 8]);
            assert_eq!(outcome, refused(Ground::NotEncodable, 0));
        }
        if names.contains(&kind(number)) {
            let mut out = [0xAA; 9];
            let outcome = encode_as(kind(number), number.into(), &[], &[], &mut out);
            assert_eq!(outcome, Ok(1));
            assert_eq!(out, [number, 0, 0, 0, 0, 0, 0, 0, 0xAA]);
        }
    }
    let number = |name| (0..64).filter(move |number| kind(*number) == name);
    assert!(number(Kind::NoOperation).eq([0]));
    assert!(number(Kind::Unassigned).eq((1..8).chain(0x10..0x24).chain([0x31])));
}

#[test]
fn triangle_flags_must_agree_with_the_number() {
    for number in 8..16u8 {
        for index in 0..3 {
            let bit = u64::from(number >> (2 - index) & 1);
            assert_eq!(encode_with(number, index, bit), (0, words(number)));
            assert_eq!(encode_with(number, index, 1 - bit), (15, 0));
        }
    }
}

#[test]
fn the_suffix_is_exactly_the_words_due() {
    for number in 0..64u8 {
        let mut zeros = vec![0; words(number)];
        zeros[0] = command(number);
        let fields = decode(&bytes_of(&zeros)).expect("whole").fields;
        let due = suffix_words(number) * 8;
        for length in [due.wrapping_sub(8), due.wrapping_sub(1), due + 1, due + 8] {
            if length <= due + 8 {
                let tail = vec![0; length];
                let outcome = encode(u32::from(number), &fields, &tail, &mut [0; 200]);
                assert_eq!(outcome, refused(Ground::NotEncodable, 0));
            }
        }
    }
}

#[test]
fn decoding_a_cut_command() {
    for number in 0..64u8 {
        let mut rng = Rng::new(3);
        let list = bytes_of(&random_command(&mut rng, number));
        let cut = decode(&list[..list.len() - 1]);
        assert_eq!(cut, refused(Ground::CutCommand, 0));
        assert_eq!(suffix(&list[..list.len() - 1]), []);
        let mut longer = list.clone();
        longer.push(0xAA);
        assert_eq!(decode(&longer), decode(&list));
        assert_eq!(suffix(&longer), suffix(&list));
    }
    assert_eq!(decode(&[]), refused(Ground::CutCommand, 0));
}

#[test]
fn packed_decoding() {
    let list = bytes_of(&[R]);
    let mut fields = [7; 5];
    assert_eq!(packed::decode(&list, &mut fields), 0x36 << 32 | 4);
    assert_eq!(fields, [8, 8, 4, 4, 7]);
    assert_eq!(packed::decode(&list, &mut fields[..3]), 14 << 56 | 4);
    assert_eq!(packed::decode(&list[..7], &mut fields), 3 << 56);
    assert_eq!(
        packed::decode(&bytes_of(&[command(0x31)]), &mut []),
        0x31 << 32
    );
}
