//! Request #108: display lists of Fast3DEX2 (003) become an RDP list. One loop runs the
//! commands of all lists, and a stack holds where calls return to.

use crate::answer::{write_front, Ground, Refusal};
use crate::words::{bits, bytes_of, mask, word_at, WORD_BYTES};

/// "At most 4,096 display list commands are read."
pub const MOST_READ: usize = 4_096;

/// "To eight calls deep."
pub const MOST_CALLS: usize = 8;

/// What lies beyond counts as not lent: every offset then has 32 bits.
pub const MOST_MEMORY: usize = 4_294_967_288;

const GO: u8 = 0xDE;
const END: u8 = 0xDF;
const FIRST_HALF: u8 = 0xE1;
const MODES_LOW: u8 = 0xE2;
const MODES_HIGH: u8 = 0xE3;
const RECTANGLE: u8 = 0xE4;
const RECTANGLE_FLIP: u8 = 0xE5;
const MODES: u8 = 0xEF;
const SECOND_HALF: u8 = 0xF1;

/// What 0xDE's parameter says: call, or go there for good.
const CALL: u64 = 0x00;
const FOR_GOOD: u64 = 0x01;

/// The answer: the words written or needed, and the commands read.
#[derive(Clone, Copy, Debug, PartialEq, Eq)]
pub struct Translated {
    pub outcome: Result<usize, Refusal>,
    pub read: usize,
}

/// Writes the RDP list of the display list that starts at an offset. "Last 14."
pub fn translate(memory: &[u8], start: u32, out: &mut [u8]) -> Translated {
    let walk = walk(memory, start);
    Translated {
        outcome: walk.outcome.and_then(|()| write(&walk.words, out)),
        read: walk.read,
    }
}

fn write(words: &[u64], out: &mut [u8]) -> Result<usize, Refusal> {
    write_front(out, &bytes_of(words), words.len())?;
    Ok(words.len())
}

/// All of a walk, to its end or to its refusal.
pub fn walk(memory: &[u8], start: u32) -> Walk<'_> {
    let mut walk = Walk {
        memory: &memory[..memory.len().min(MOST_MEMORY)],
        outcome: Ok(()),
        words: Vec::new(),
        read: 0,
        deepest: 0,
        modes: 0,
        returns: Vec::new(),
    };
    walk.outcome = walk.run(start as usize);
    walk
}

/// A walk under way.
#[derive(Clone, Debug, PartialEq, Eq)]
pub struct Walk<'a> {
    memory: &'a [u8],
    pub outcome: Result<(), Refusal>,
    /// The RDP list so far.
    pub words: Vec<u64>,
    /// "Half-words counted, a refused one not."
    pub read: usize,
    /// The most calls that had not returned at one time.
    pub deepest: usize,
    /// "The setting starts at zero": the high and the low word side by side.
    modes: u64,
    /// Where the calls that have not returned go on.
    returns: Vec<usize>,
}

impl Walk<'_> {
    fn run(&mut self, start: usize) -> Result<(), Refusal> {
        let mut next = Some(start);
        while let Some(offset) = next {
            next = self.step(offset)?;
        }
        Ok(())
    }

    /// Runs the command at an offset. Answers the next one's, and none after the end of
    /// the outermost list.
    fn step(&mut self, offset: usize) -> Result<Option<usize>, Refusal> {
        let word = self.judged(offset)?;
        self.read += 1;
        let after = offset + WORD_BYTES;
        match number(word) {
            GO => return Ok(Some(self.go(word, after))),
            END => return Ok(self.returns.pop()),
            RECTANGLE | RECTANGLE_FLIP => return self.rectangle(word, after).map(Some),
            MODES_LOW => self.change_modes(word, 0),
            MODES_HIGH => self.change_modes(word, 32),
            MODES => {
                self.modes = word;
                self.words.push(rdp_word(word));
            }
            _ => self.words.push(rdp_word(word)),
        }
        Ok(Some(after))
    }

    /// A command's word, after grounds 20, 21, 22 and 23 in this order.
    fn judged(&self, offset: usize) -> Result<u64, Refusal> {
        let word = self.readable(offset)?;
        if !stands_alone(number(word)) {
            Err(Refusal::new(Ground::NotTranslated, offset))
        } else if self.is_wrong(word) {
            Err(Refusal::new(Ground::WrongParameter, offset))
        } else {
            Ok(word)
        }
    }

    /// 20, "offset no multiple of 8 or command beyond the lent memory"; 21, "the
    /// 4,097th command".
    fn readable(&self, offset: usize) -> Result<u64, Refusal> {
        let outside = offset + WORD_BYTES > self.memory.len();
        if !offset.is_multiple_of(WORD_BYTES) || outside {
            Err(Refusal::new(Ground::OffsetOutside, offset))
        } else if self.read == MOST_READ {
            Err(Refusal::new(Ground::TooManyRead, offset))
        } else {
            Ok(word_at(self.memory, offset / WORD_BYTES))
        }
    }

    /// Ground 23. A call is judged before its target is looked at.
    fn is_wrong(&self, word: u64) -> bool {
        let ninth_call = self.returns.len() == MOST_CALLS;
        match number(word) {
            GO => match parameter(word) {
                CALL => has_segment(word) || ninth_call,
                FOR_GOOD => has_segment(word),
                _ => true,
            },
            0xFD..=0xFF => has_segment(word),
            MODES_LOW | MODES_HIGH => changed_bits(word).is_none(),
            _ => false,
        }
    }

    /// "0xDE with 00 calls the list at an offset, with 01 goes there for good."
    fn go(&mut self, word: u64, after: usize) -> usize {
        if parameter(word) == CALL {
            self.returns.push(after);
            self.deepest = self.deepest.max(self.returns.len());
        }
        bits(word, 31, 0) as usize
    }

    /// "With a second word from the half-words .. of the 0xE1 and 0xF1 commands that
    /// directly follow."
    fn rectangle(&mut self, word: u64, after: usize) -> Result<usize, Refusal> {
        let high = self.half_word(after, FIRST_HALF)?;
        let low = self.half_word(after + WORD_BYTES, SECOND_HALF)?;
        self.words.extend([rdp_word(word), high << 32 | low]);
        Ok(after + 2 * WORD_BYTES)
    }

    /// "Each half-word is judged by 20, 21, 22 at its own offset."
    fn half_word(&mut self, offset: usize, due: u8) -> Result<u64, Refusal> {
        let word = self.readable(offset)?;
        if number(word) != due {
            return Err(Refusal::new(Ground::NotTranslated, offset));
        }
        self.read += 1;
        Ok(bits(word, 31, 0))
    }

    /// 003: "LO = LO & ~(((1 << n) - 1) << s) | d", here for the word that starts at
    /// this bit of the setting. Then "one Set Other Modes of the whole setting".
    fn change_modes(&mut self, word: u64, first_bit: u32) {
        let cleared = changed_bits(word).expect("ground 23 was tested");
        let data = bits(word, 31, 0);
        self.modes = self.modes & !(cleared << first_bit) | data << first_bit;
        self.words.push(0x2F << 56 | bits(self.modes, 55, 0));
    }
}

/// A display list command's number.
fn number(word: u64) -> u8 {
    bits(word, 63, 56) as u8
}

/// The numbers that 02 names, but for those that must follow a rectangle.
fn stands_alone(number: u8) -> bool {
    matches!(number, GO..=END | MODES_LOW..=0xF0 | 0xF2..=0xFF)
}

/// "The command of the low six bits, bits 63:62 zero, others kept."
fn rdp_word(word: u64) -> u64 {
    bits(word, 61, 0)
}

/// 003: "DE [AA] 00 00 [BB BB BB BB]".
fn parameter(word: u64) -> u64 {
    bits(word, 55, 48)
}

/// "An address .. whose top byte is not 0."
fn has_segment(word: u64) -> bool {
    bits(word, 31, 24) != 0
}

/// The bits of its half of the setting that 0xE2 or 0xE3 clears, unless "a shift and
/// count [are] outside 32 bits". 003: ss is 32 - shift - count, nn is count - 1.
fn changed_bits(word: u64) -> Option<u64> {
    let count = bits(word, 39, 32) as u32 + 1;
    let shift = 32u32.checked_sub(bits(word, 47, 40) as u32 + count)?;
    Some(mask(count) << shift)
}
