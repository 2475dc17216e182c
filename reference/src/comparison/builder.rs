//! Building of lists, command by command.

use crate::comparison::rng::Rng;
use crate::encode::encode;
use crate::fields::{fields_of, Field};
use crate::kinds::{base_words, suffix_words, words, Sync};
use crate::marks::Marks;
use crate::registers::Registers;
use crate::words::{bytes_of, mask, word_at};

/// Some of the unassigned numbers, those at the ends of their rows among them.
const UNASSIGNED: &[u8] = &[0x01, 0x05, 0x07, 0x10, 0x1F, 0x20, 0x23, 0x31];

/// A list under way.
pub struct Builder<'a> {
    pub rng: &'a mut Rng,
    pub words: Vec<u64>,
    marks: Marks,
    /// The registers after the words so far.
    pub registers: Registers,
    /// How often, in percent, a missing sync is put in.
    pub sync_percent: u64,
    /// Whether the unused bits are random instead of zero.
    stray_bits: bool,
    /// Whether there may be unassigned numbers.
    stray_numbers: bool,
}

impl Builder<'_> {
    /// An empty list. A missing sync is put in that often, in percent.
    pub fn new(rng: &mut Rng, sync_percent: u64) -> Builder<'_> {
        let stray_bits = rng.one_in(2);
        let stray_numbers = rng.one_in(8);
        Builder {
            rng,
            words: Vec::new(),
            marks: Marks::default(),
            registers: Registers::default(),
            sync_percent,
            stray_bits,
            stray_numbers,
        }
    }

    pub fn list(self) -> Vec<u8> {
        bytes_of(&self.words)
    }

    /// Appends a command with these fields, in the order of 000's bit lines.
    pub fn command(&mut self, number: u8, fields: &[u64]) {
        let suffix = self.rng.bytes(suffix_words(number) * 8);
        let mut out = vec![0; words(number) * 8];
        encode(u32::from(number), fields, &suffix, &mut out).expect("fields fit");
        let command = (0..words(number)).map(|place| word_at(&out, place));
        self.push(number, command.collect());
    }

    /// Appends a command with random bits in all its fields.
    pub fn random(&mut self, number: u8) {
        let command: Vec<u64> = (0..words(number))
            .map(|place| self.random_word(number, place))
            .collect();
        self.push(number, command);
    }

    /// Appends a command with one of these numbers and random bits.
    pub fn one_of(&mut self, numbers: &[u8]) {
        let number = self.rng.pick(numbers);
        self.random(number);
    }

    /// Appends a command with random bits, in a few lists now and then with an
    /// unassigned number in place of a no operation.
    pub fn usual(&mut self, number: u8) {
        let strays = number == 0x00 && self.stray_numbers && self.rng.one_in(4);
        let stray = self.rng.pick(UNASSIGNED);
        self.random(if strays { stray } else { number });
    }

    /// Random fields for a command with unsigned fields.
    pub fn random_fields(&mut self, number: u8) -> Vec<u64> {
        let value = |field: &Field| self.rng.number() & mask(field.width());
        fields_of(number).iter().map(value).collect()
    }

    fn random_word(&mut self, number: u8, place: usize) -> u64 {
        let random = self.rng.number() & used_bits(number, place);
        if place == 0 {
            random & !(0x3F << 56) | u64::from(number) << 56
        } else {
            random
        }
    }

    /// Appends a command's words, before them perhaps a missing sync.
    fn push(&mut self, number: u8, mut command: Vec<u64>) {
        self.sync_before(number);
        if self.stray_bits {
            for (place, word) in command.iter_mut().enumerate() {
                *word |= self.rng.number() & !used_bits(number, place);
            }
        }
        self.registers.run(command[0]);
        self.words.extend(command);
        self.marks = self.marks.after(number);
    }

    fn sync_before(&mut self, number: u8) {
        let Some(sync) = self.marks.missing_sync(number) else {
            return;
        };
        if self.rng.percent(self.sync_percent) {
            let serving: &[u8] = match sync {
                Sync::Load => &[0x26, 0x26, 0x28, 0x27],
                Sync::Tile => &[0x28, 0x27],
                Sync::Pipe | Sync::Full => &[0x27],
            };
            let chosen = self.rng.pick(serving);
            self.random(chosen);
        }
    }
}

/// The bits of a command's word that have a meaning. Suffix words keep all.
fn used_bits(number: u8, place: usize) -> u64 {
    if place >= base_words(number) {
        return u64::MAX;
    }
    let command_number = if place == 0 { 0x3F << 56 } else { 0 };
    fields_of(number)
        .iter()
        .filter(|field| field.word == place)
        .fold(command_number, |used, field| {
            used | mask(field.width()) << field.low
        })
}
