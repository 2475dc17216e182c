//! Memories with display lists: request #108.

use crate::comparison::rng::Rng;
use crate::display::MOST_READ;
use crate::words::bytes_of;

/// A memory, and the offset where its outermost list starts.
pub struct Display {
    pub memory: Vec<u8>,
    pub start: u32,
}

/// The display list of a case: the case's number chooses the class.
pub fn display(rng: &mut Rng, case: u64) -> Display {
    match case % 40 {
        0 => long(rng),
        1 => circle(rng),
        2..=5 => chain(rng),
        6..=7 => all_counts(rng, case / 40),
        8 => random_bytes(rng),
        9..=16 => damaged(rng),
        _ => lists(rng),
    }
}

/// Commands of no other effect than their own word.
const PLAIN: &[u64] = &[
    0xE6, 0xE7, 0xE8, 0xE9, 0xEA, 0xEF, 0xEF, 0xF0, 0xF2, 0xF7, 0xFC,
];

/// The lists of one memory under way, one after the other.
struct Builder<'a> {
    rng: &'a mut Rng,
    words: Vec<u64>,
    /// Where the lists start, in words.
    starts: Vec<usize>,
}

impl Builder<'_> {
    fn new(rng: &mut Rng, starts: Vec<usize>) -> Builder<'_> {
        let words = (0..starts[0]).map(|_| rng.number()).collect();
        Builder { rng, words, starts }
    }

    /// The memory with its first list as the outermost one.
    fn finish(self) -> Display {
        Display {
            memory: bytes_of(&self.words),
            start: 8 * self.starts[0] as u32,
        }
    }

    /// A command with random bits below its number.
    fn push(&mut self, number: u64) {
        let word = bits_below(self.rng, number);
        self.words.push(word);
    }

    /// A command with a parameter and an address.
    fn push_address(&mut self, number: u64, parameter: u64, address: u64) {
        let unjudged = self.rng.number() & 0xFFFF << 32;
        let word = number << 56 | parameter << 48 | unjudged | address;
        self.words.push(word);
    }

    /// A call, or going for good, to a list.
    fn go(&mut self, parameter: u64, list: usize) {
        let address = 8 * self.starts[list] as u64;
        self.push_address(0xDE, parameter, address);
    }

    fn end(&mut self) {
        self.push(0xDF);
    }

    fn plain(&mut self) {
        let number = self.rng.pick(PLAIN);
        self.push(number);
    }

    /// A texture rectangle with its half-words.
    fn rectangle(&mut self) {
        let number = self.rng.between(0xE4, 0xE5);
        for number in [number, 0xE1, 0xF1] {
            self.push(number);
        }
    }

    /// One of the numbers that have an address, seldom one with a segment.
    fn image(&mut self) {
        let number = self.rng.between(0xFD, 0xFF);
        let segment = if self.rng.one_in(30) { 1 << 24 } else { 0 };
        let address = self.rng.number() & 0xFF_FFFF | segment;
        let parameter = self.rng.below(256);
        self.push_address(number, parameter, address);
    }

    /// A change of the other modes inside its 32 bits.
    fn modes(&mut self) {
        let count = self.rng.between(1, 32);
        let shift = self.rng.below(33 - count);
        self.change(shift, count - 1);
    }

    /// One that goes a bit too far.
    fn wrong_modes(&mut self) {
        let count = self.rng.between(1, 32);
        self.change(33 - count, count - 1);
    }

    /// 003's ss and nn, and data that most often reach beyond them.
    fn change(&mut self, shift: u64, count: u64) {
        let number = self.rng.between(0xE2, 0xE3);
        let unjudged = self.rng.number() & 0xFF << 48;
        let data = self.rng.number() >> 32;
        let sparse = data & self.rng.number();
        let data = self.rng.pick(&[data, sparse, 0]);
        let word = number << 56 | unjudged | shift << 40 | count << 32 | data;
        self.words.push(word);
    }

    /// A going that 23 or 20 refuses.
    fn wrong_going(&mut self) {
        let parameter = self.rng.pick(&[0, 1, 2, 0x10, 0x80, 0xFF]);
        let any = self.rng.number() >> 32;
        let misaligned = self.rng.below(16) * 8 + self.rng.between(1, 7);
        let beyond = 8 * self.rng.between(60, 600);
        let address = self.rng.pick(&[any, misaligned, beyond]);
        self.push_address(0xDE, parameter, address);
    }

    /// A rectangle without one of its half-words, with others, or one alone.
    fn wrong_half_word(&mut self) {
        let wrong: &[u64] = match self.rng.below(6) {
            0 => &[0xE4, 0xF1],
            1 => &[0xE5, 0xE1],
            2 => &[0xE5, 0xF1, 0xE1],
            3 => &[0xE4, 0xE1, 0xE1],
            4 => &[0xE1],
            _ => &[0xF1],
        };
        for number in wrong {
            self.push(*number);
        }
    }

    /// One command, or a rectangle with its half-words. Calls go to later lists, seldom
    /// to any.
    fn command(&mut self, list: usize) {
        let count = self.starts.len();
        let later = (list + 1 + self.rng.below(count as u64) as usize).min(count - 1);
        let any = self.rng.below(count as u64) as usize;
        match self.rng.below(80) {
            0..=9 if later > list => self.go(0, later),
            10 => self.go(0, any),
            11..=29 => self.modes(),
            30..=39 => self.image(),
            40..=51 => self.rectangle(),
            52 => self.wrong_going(),
            53 => self.wrong_half_word(),
            54 => self.wrong_modes(),
            55 => {
                let number = self.rng.below(256);
                self.push(number);
            }
            _ => self.plain(),
        }
    }

    /// Commands up to the next list, which the last rectangle may run into.
    fn fill(&mut self, list: usize, end: usize) {
        while self.words.len() + 1 < end {
            self.command(list);
        }
        let last = self.starts.len() - 1;
        match self.rng.below(12) {
            0 => self.go(1, (list + 1).min(last)),
            1 => self.plain(),
            _ => self.end(),
        }
    }
}

/// A word with this number and any bits below it.
fn bits_below(rng: &mut Rng, number: u64) -> u64 {
    let below = if number >= 0xFD {
        0x00FF_FFFF_00FF_FFFF
    } else {
        0x00FF_FFFF_FFFF_FFFF
    };
    number << 56 | rng.number() & below
}

/// Some lists that call each other.
fn lists(rng: &mut Rng) -> Display {
    let mut at = rng.below(3) as usize;
    let mut starts = vec![at];
    for _ in 0..rng.below(6) {
        at += rng.between(2, 14) as usize;
        starts.push(at);
    }
    let last = at + rng.between(1, 14) as usize;
    let ends: Vec<usize> = starts[1..].iter().copied().chain([last]).collect();
    let mut builder = Builder::new(rng, starts);
    for (list, end) in ends.into_iter().enumerate() {
        builder.fill(list, end);
        // A rectangle that ran too far gives way to the next list.
        builder.words.truncate(end);
    }
    builder.finish()
}

/// Lists that each call the next, to a depth around eight, with some goings for good.
fn chain(rng: &mut Rng) -> Display {
    const SPACE: usize = 4;
    let calls = rng.pick(&[3, 4, 5, 6, 7, 8, 8, 8, 9, 9]);
    let for_good = rng.below(4) as usize;
    let mut parameters = [vec![0; calls], vec![1; for_good]].concat();
    for at in (1..parameters.len()).rev() {
        parameters.swap(at, rng.below(at as u64 + 1) as usize);
    }
    let starts = (0..=parameters.len()).map(|list| SPACE * list).collect();
    let mut builder = Builder::new(rng, starts);
    for (list, parameter) in parameters.into_iter().enumerate() {
        builder.plain();
        builder.go(parameter, list + 1);
        builder.plain();
        builder.end();
    }
    builder.plain();
    // Another call at the same depth, now and then of the first list again.
    if builder.rng.one_in(3) {
        builder.go(0, 0);
    }
    builder.end();
    builder.finish()
}

/// Two lists that go to each other for good, with a call that returns.
fn circle(rng: &mut Rng) -> Display {
    let starts = vec![0, 6, 12];
    let mut builder = Builder::new(rng, starts);
    for list in [0, 1] {
        builder.plain();
        builder.go(0, 2);
        builder.rectangle();
        builder.go(1, 1 - list);
        builder.words.resize(6 * (list + 1), 0);
    }
    builder.plain();
    builder.end();
    builder.finish()
}

/// One list of about as many commands as may be read. The last one may be refused, or
/// missing.
fn long(rng: &mut Rng) -> Display {
    let count = MOST_READ + 2 - rng.below(4) as usize;
    let mut builder = Builder::new(rng, vec![0]);
    while builder.words.len() + 4 < count {
        match builder.rng.below(4) {
            0 => builder.rectangle(),
            1 => builder.modes(),
            _ => builder.plain(),
        }
    }
    if builder.rng.one_in(2) {
        builder.rectangle();
    }
    while builder.words.len() + 1 < count {
        builder.plain();
    }
    match builder.rng.below(8) {
        0 => {}
        1 => builder.wrong_half_word(),
        2 => builder.wrong_modes(),
        _ => builder.end(),
    }
    builder.finish()
}

/// Changes of every count for one shift, at the end seldom one that goes too far.
fn all_counts(rng: &mut Rng, turn: u64) -> Display {
    let shift = turn % 33;
    let mut builder = Builder::new(rng, vec![0]);
    for count in 0..32u64.saturating_sub(shift) {
        builder.change(shift, count);
    }
    match builder.rng.below(4) {
        0 => builder.change(shift, 32 - shift),
        1 => builder.change(255, shift),
        2 => builder.change(shift, 255),
        _ => {}
    }
    builder.end();
    builder.finish()
}

/// Any bytes, their numbers most often named.
fn random_bytes(rng: &mut Rng) -> Display {
    let length = rng.below(80) as usize;
    let mut memory = rng.bytes(length);
    for word in memory.chunks_mut(8) {
        word[0] |= rng.pick(&[0, 0xE0, 0xE0, 0xF0]);
    }
    let start = rng.pick(&[0, 0, 8, 4, u32::MAX, 0xFFFF_FFF8]);
    Display { memory, start }
}

/// Lists with a byte changed, cut anywhere, or started elsewhere.
fn damaged(rng: &mut Rng) -> Display {
    let mut display = if rng.one_in(4) {
        chain(rng)
    } else {
        lists(rng)
    };
    let length = display.memory.len();
    let at = rng.below(length as u64) as usize;
    match rng.below(8) {
        0 => display.memory[at] ^= 1 << rng.below(8),
        1 => display.memory[at / 8 * 8] = rng.number() as u8,
        2 => display.start = rng.below(length as u64 + 16) as u32,
        3 => display.start = at as u32 / 8 * 8,
        4 => display
            .memory
            .truncate(length - rng.between(1, 20.min(length as u64)) as usize),
        _ => display.memory.truncate(at),
    }
    display
}
