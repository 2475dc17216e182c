//! A list in portions: its cuts, damage to the record between two of them, and what
//! must hold of a side's record.

use std::fmt;

use crate::comparison::laws::sync_cycles;
use crate::comparison::rng::Rng;
use crate::comparison::side::Side;
use crate::packed::Answer;
use crate::record::{bytes_of, record_of, Record, BYTES, ENDED, HAZARDS, HELD, HELD_COUNT};
use crate::record::{NUMBER, NUMBERS, PLACE, SPARE, TAKEN, TOTAL};
use crate::registers::WORDS;
use crate::stream::{MOST_TOTAL, ROOM};
use crate::words::{command_number, WORD_BYTES};

/// A guard beside the record.
const GUARD: Record = [0xA5A5_A5A5_A5A5_A5A5; NUMBERS];

/// The lengths of the portions, the damage, and what was seen at the calls.
#[derive(Clone, Debug, Default, PartialEq, Eq)]
pub struct Portions {
    /// The lengths of the portions; a list's last bytes may belong to none.
    pub lengths: Vec<usize>,
    /// Before this portion the record is damaged.
    pub damaged: Option<(usize, Damage)>,
    /// The answers to all portions, and to closing twice.
    pub answers: Vec<u64>,
    /// The record after the calls, without the registers' words.
    pub record: Vec<u8>,
    /// The registers' words in an order of their own.
    pub words: Vec<u64>,
    /// Whether the numbers beside the record stayed.
    pub guards_stay: bool,
}

/// Bytes of a record, and what they become.
#[derive(Clone, Debug, Default, PartialEq, Eq)]
pub struct Damage(Vec<(usize, u8)>);

impl Portions {
    pub fn random(rng: &mut Rng, length: usize) -> Portions {
        let lengths = random_lengths(rng, length);
        let damaged = rng.one_in(3).then(|| {
            let before = rng.below(lengths.len() as u64 + 1) as usize;
            (before, Damage::random(rng))
        });
        Portions {
            lengths,
            damaged,
            ..Portions::default()
        }
    }

    /// Feeds the list to a fresh record of a side and closes it twice.
    pub fn make(&mut self, side: &dyn Side, list: &[u8]) -> u64 {
        let mut lent = [GUARD, [0; NUMBERS], GUARD];
        let mut answers = Vec::new();
        let record = &mut lent[1];
        self.walk(list, record, |record, portion| {
            answers.push(side.feed(record, portion));
        });
        let last = side.close(record);
        answers.extend([last, side.close(record)]);
        self.record = without_words(record);
        self.words = sorted_words(record);
        self.guards_stay = lent[0] == GUARD && lent[2] == GUARD;
        self.answers = answers;
        last
    }

    /// Hands each portion on with the record, which is damaged in between.
    fn walk(&self, list: &[u8], record: &mut Record, mut feed: impl FnMut(&mut Record, &[u8])) {
        let mut at = 0;
        for (index, length) in self.lengths.iter().enumerate() {
            self.damage_before(index, record);
            feed(record, &list[at..at + length]);
            at += length;
        }
        self.damage_before(self.lengths.len(), record);
    }

    fn damage_before(&self, index: usize, record: &mut Record) {
        if let Some((before, damage)) = &self.damaged {
            if *before == index {
                damage.apply(record);
            }
        }
    }

    /// The first thing in which two walks differ, and where.
    pub fn first_difference(&self, other: &Portions) -> Option<(&'static str, i64)> {
        let differs = |left: &[u8], right: &[u8]| (0..left.len()).find(|i| left[*i] != right[*i]);
        let answers = (0..self.answers.len()).find(|i| self.answers[*i] != other.answers[*i]);
        let in_answers = answers.map(|at| ("answers", at as i64));
        let in_record = differs(&self.record, &other.record).map(|at| ("record", at as i64));
        let in_guards = (self.guards_stay != other.guards_stay).then_some(("guards", 0));
        let in_words = (self.words != other.words).then_some(("registers", 0));
        in_answers.or(in_record).or(in_words).or(in_guards)
    }
}

/// The lengths of the portions, and the damage.
impl fmt::Display for Portions {
    fn fmt(&self, f: &mut fmt::Formatter) -> fmt::Result {
        writeln!(f, "portions {:?}", self.lengths)?;
        match &self.damaged {
            Some((before, damage)) => {
                writeln!(f, "before portion {before} bytes become {:?}", damage.0)
            }
            None => Ok(()),
        }
    }
}

/// A record's bytes that two sides share: the registers' words lie in an order of
/// each side's own, of the hazards the low four bits count, and the end is 0 or not.
fn without_words(record: &Record) -> Vec<u8> {
    let mut bytes = bytes_of(record);
    bytes[HAZARDS] &= 15;
    bytes[ENDED] = (bytes[ENDED] != 0).into();
    bytes[HELD..].to_vec()
}

/// The words of the registers, sorted: each side has them in an order of its own. Of a
/// tile's size only the size counts, and not which command set it.
fn sorted_words(record: &Record) -> Vec<u64> {
    let is_size = |word: u64| matches!(command_number(word), 0x30 | 0x32 | 0x33 | 0x34);
    let size_alone = |word: u64| word & 0x00FF_FFFF_00FF_FFFF;
    let word = |word: &u64| {
        if is_size(*word) {
            size_alone(*word)
        } else {
            *word
        }
    };
    let mut words: Vec<u64> = record[..WORDS].iter().map(word).collect();
    words.sort_unstable();
    words
}

/// Portions of a list: whole, byte by byte, word by word, around the longest command,
/// or any, with empty ones first and between. The list may end inside the last one.
fn random_lengths(rng: &mut Rng, length: usize) -> Vec<usize> {
    let most = match rng.below(8) {
        0 => length,
        1 if length < 400 => 1,
        1 | 2 => 8,
        3 => rng.pick(&[7, 9, 63, 64, 65]),
        4 => rng.between(170, 180) as usize,
        5 => 1 + length / 2,
        _ => rng.between(1, 40) as usize,
    };
    let most = most.max(1 + length / 300);
    let (varied, empties) = (rng.one_in(2), rng.one_in(3));
    let mut lengths = vec![0; usize::from(empties)];
    let mut left = length;
    while left > 0 {
        let here = if varied {
            rng.between(1, most as u64) as usize
        } else {
            most
        };
        let here = here.min(left);
        lengths.push(here);
        left -= here;
        if empties && rng.one_in(4) {
            lengths.push(0);
        }
    }
    lengths
}

impl Damage {
    /// In one of 28's ways, nearly so, or anywhere past the registers.
    pub fn random(rng: &mut Rng) -> Damage {
        let number = |rng: &mut Rng, at: usize, most: u64| {
            let value = rng.below(most) as u32;
            let any = rng.number() as u32;
            number_at(at, rng.pick(&[value, value, value, any]))
        };
        Damage(match rng.below(11) {
            0 => number(rng, HELD_COUNT, 180),
            1 => number(rng, TAKEN, 33_000),
            2 => number(rng, NUMBER, 31),
            3 => {
                let any = rng.below(ROOM as u64) as usize;
                vec![(HELD + rng.pick(&[any, ROOM - 1]), rng.number() as u8)]
            }
            4 => whole_command(rng),
            5 => [number(rng, HELD_COUNT, 24), number(rng, TAKEN, 48)].concat(),
            6 => [number(rng, NUMBER, 10), number(rng, PLACE, 5_000)].concat(),
            7 => [number_at(NUMBER, 19), number(rng, PLACE, 5_000)].concat(),
            8 => number_at(TOTAL, random_total(rng)),
            9 => [SPARE, SPARE + 1].map(|at| (at, rng.number() as u8)).into(),
            _ => (0..rng.between(1, 6))
                .map(|_| {
                    (
                        rng.between(HELD as u64, BYTES as u64 - 1) as usize,
                        rng.number() as u8,
                    )
                })
                .collect(),
        })
    }

    pub fn apply(&self, record: &mut Record) {
        let mut bytes = bytes_of(record);
        for (at, byte) in &self.0 {
            bytes[*at] = *byte;
        }
        *record = record_of(&bytes);
    }
}

/// The bytes of a number that stands there.
fn number_at(at: usize, value: u32) -> Vec<(usize, u8)> {
    (at..at + 4).zip(value.to_ne_bytes()).collect()
}

/// A total at 28's edge, below it, or any. From the edge a sync leads above it.
fn random_total(rng: &mut Rng) -> u32 {
    let near = MOST_TOTAL - rng.below(200) as u32;
    let below = rng.below(MOST_TOTAL.into()) as u32;
    let any = rng.number() as u32;
    rng.pick(&[MOST_TOTAL, MOST_TOTAL, MOST_TOTAL + 1, near, below, any])
}

/// Held bytes that make a command, or one too few, with counts that fit.
fn whole_command(rng: &mut Rng) -> Vec<(usize, u8)> {
    let count = rng.between(7, 9) as u8;
    let room = (HELD..HELD_COUNT).map(|at| (at, 0));
    let counts = [(HELD_COUNT, count), (TAKEN, count + 16)];
    let zeros = (HELD_COUNT..NUMBER).map(|at| (at, 0));
    room.chain(zeros).chain(counts).collect()
}

/// A side's whole record after some bytes of a list in one portion.
fn record_after(side: &dyn Side, list: &[u8]) -> Record {
    let mut record = [0; NUMBERS];
    side.feed(&mut record, list);
    record
}

/// A record with another remembered refusal.
fn remembering(record: &Record, number: u32, place: u32) -> Record {
    let mut bytes: [u8; BYTES] = bytes_of(record);
    bytes[NUMBER..PLACE].copy_from_slice(&number.to_ne_bytes());
    bytes[PLACE..PLACE + 4].copy_from_slice(&place.to_ne_bytes());
    record_of(&bytes)
}

/// Tests a side's own records, the registers' words with them: every cutting leaves
/// the record of one portion, a refusal the one before the refused command, and 28
/// and repeated refusals leave it alone. And every answer has its total.
pub fn test_record(
    side: &dyn Side,
    rng: &mut Rng,
    list: &[u8],
    portions: &Portions,
) -> Result<(), String> {
    test_cutting(side, list, portions)?;
    test_totals(side, list, portions)?;
    test_refusal(side, list)?;
    test_kept(side, rng, list, portions)
}

/// The record after the same portions without damage, and the answers.
fn undamaged(side: &dyn Side, list: &[u8], portions: &Portions) -> (Record, Vec<u64>) {
    let cut = Portions {
        damaged: None,
        ..portions.clone()
    };
    let mut record = [0; NUMBERS];
    let mut answers = Vec::new();
    cut.walk(list, &mut record, |record, portion| {
        answers.push(side.feed(record, portion));
    });
    (record, answers)
}

fn test_cutting(side: &dyn Side, list: &[u8], portions: &Portions) -> Result<(), String> {
    let (record, _) = undamaged(side, list, portions);
    if record != record_after(side, list) {
        return Err("a cutting leaves another record than one portion".to_string());
    }
    Ok(())
}

/// Request #105: "from a fresh one it equals, after each operation, the sum over the
/// commands accepted so far". These are the ones before the answer's place.
fn test_totals(side: &dyn Side, list: &[u8], portions: &Portions) -> Result<(), String> {
    let (mut record, mut answers) = undamaged(side, list, portions);
    answers.push(side.close(&mut record));
    let holds = |answer: u64| {
        let Answer { place, third, .. } = Answer::unpack(answer);
        third == sync_cycles(&list[..WORD_BYTES * place as usize])
    };
    if !answers.into_iter().all(holds) {
        return Err("a total is not the sum over the accepted commands".to_string());
    }
    Ok(())
}

/// "All else as before the refused command's first byte; 1 leaves it as after byte
/// 32,768, closing adds only its refusal and changes nothing if it accepts."
fn test_refusal(side: &dyn Side, list: &[u8]) -> Result<(), String> {
    let mut record = record_after(side, list);
    let fed = Answer::unpack(side.feed(&mut record, &[]));
    let (number, place) = (u32::from(fed.number), fed.place);
    if number != 0 {
        let before = record_after(side, &list[..8 * place as usize]);
        if record != remembering(&before, number, place) {
            return Err("a refusal changes more than it says".to_string());
        }
    }
    let closed = Answer::unpack(side.close(&mut record));
    let expected = match closed.number {
        0 => record_after(side, list),
        number => remembering(&record_after(side, list), number.into(), closed.place),
    };
    if record != expected {
        return Err("closing changes more than it says".to_string());
    }
    Ok(())
}

/// After a refusal, 28 with any registers among them, a call leaves every byte.
fn test_kept(
    side: &dyn Side,
    rng: &mut Rng,
    list: &[u8],
    portions: &Portions,
) -> Result<(), String> {
    let mut record = record_after(side, list);
    side.close(&mut record);
    if let Some((_, damage)) = &portions.damaged {
        record[..WORDS].fill_with(|| rng.number());
        damage.apply(&mut record);
    }
    let received = record;
    let mut again = record;
    let first = side.feed(&mut record, list);
    let refused = Answer::unpack(first).number != 0;
    let repeated = side.close(&mut again) == first && again == received && record == received;
    let was_refused = crate::record::unpack(&received).feed(&[]).number != 0;
    if was_refused && !(refused && repeated) {
        return Err("a call after a refusal changes something".to_string());
    }
    Ok(())
}
