//! Request #103: a list that arrives in portions, taken byte by byte. Request #105:
//! its waiting, kept up to date.

use crate::answer::Ground;
use crate::check::{State, Syncs, CHECK_LIMIT};
use crate::kinds::{wait, words};
use crate::words::{command_number, word_at, WORD_BYTES};

/// "The bytes of a command not yet complete (at most 175)."
pub const MOST_HELD: usize = 175;

/// Room for the held bytes and for the one that completes the longest command.
pub const ROOM: usize = MOST_HELD + 1;

/// The number of the refusal of a damaged record.
pub const DAMAGED: u32 = 28;

/// How many reasons 28 has.
pub const REASONS: usize = 8;

/// "28 also for a record whose total is above 204,800."
pub const MOST_TOTAL: u32 = 204_800;

/// What the caller's record holds.
#[derive(Clone, Debug, PartialEq, Eq)]
pub struct Stream {
    /// The held bytes. "Room past the held bytes is zero."
    pub room: [u8; ROOM],
    pub held: usize,
    /// All bytes so far, those of a refused command not among them.
    pub taken: usize,
    /// "A refusal is remembered." Its number is 0 before there is one.
    pub remembered: Told,
    pub state: State,
    /// Request #105: the cycles that the syncs among the accepted commands wait.
    pub total: u32,
}

/// A call's answer.
#[derive(Clone, Copy, Debug, Default, PartialEq, Eq)]
pub struct Told {
    pub number: u32,
    pub place: u32,
}

impl Told {
    fn new(number: u32, place: usize) -> Told {
        let place = place as u32;
        Told { number, place }
    }
}

/// A fresh, idle record.
impl Default for Stream {
    fn default() -> Self {
        Stream {
            room: [0; ROOM],
            held: 0,
            taken: 0,
            remembered: Told::default(),
            state: State::default(),
            total: 0,
        }
    }
}

impl Stream {
    /// Takes a portion, of any length, which may be cut anywhere.
    pub fn feed(&mut self, portion: &[u8]) -> Told {
        if let Some(refusal) = self.earlier_refusal() {
            return refusal;
        }
        for byte in portion {
            if let Err(refusal) = self.take(*byte) {
                return refusal;
            }
        }
        Told::new(0, self.place())
    }

    /// "At closing, 2, then 3." It "adds only its refusal and changes nothing if it
    /// accepts".
    pub fn close(&mut self) -> Told {
        if let Some(refusal) = self.earlier_refusal() {
            refusal
        } else if !self.taken.is_multiple_of(WORD_BYTES) {
            self.refuse(Ground::PartialWord, self.taken / WORD_BYTES)
        } else if self.held > 0 {
            self.refuse(Ground::CutCommand, self.place())
        } else {
            Told::new(0, self.place())
        }
    }

    /// 28 comes "before all others", then "calls after a refusal repeat it".
    fn earlier_refusal(&self) -> Option<Told> {
        if self.is_damaged() {
            Some(Told::new(DAMAGED, 0))
        } else if self.remembered.number != 0 {
            Some(self.remembered)
        } else {
            None
        }
    }

    /// One byte. "Commands complete within the first 32,768 bytes are judged first,
    /// then 1", which "leaves it as after byte 32,768".
    fn take(&mut self, byte: u8) -> Result<(), Told> {
        if self.taken == CHECK_LIMIT {
            return Err(self.refuse(Ground::ListTooLong, CHECK_LIMIT / WORD_BYTES));
        }
        self.room[self.held] = byte;
        self.held += 1;
        self.taken += 1;
        if self.holds_a_command() {
            self.judge()
        } else {
            Ok(())
        }
    }

    /// "A command is judged when its last byte is in." A refusal leaves "all else as
    /// before the refused command's first byte".
    fn judge(&mut self) -> Result<(), Told> {
        let (first_word, place) = (word_at(&self.room, 0), self.place());
        let number = command_number(first_word);
        let ground = self.state.ground(number, words(number), Syncs::Demanded);
        if let Some(ground) = ground {
            self.taken -= self.held;
            self.let_go();
            return Err(self.refuse(ground, place));
        }
        self.state.run(first_word);
        self.total += wait(number);
        self.let_go();
        Ok(())
    }

    /// Holds no byte any more.
    fn let_go(&mut self) {
        self.room = [0; ROOM];
        self.held = 0;
    }

    fn refuse(&mut self, ground: Ground, place: usize) -> Told {
        self.remembered = Told::new(ground as u32, place);
        self.remembered
    }

    /// "The words of commands accepted so far", which is the place of the command not
    /// yet complete.
    fn place(&self) -> usize {
        (self.taken - self.held) / WORD_BYTES
    }

    /// The first byte has the command's number, and so decides its length.
    fn holds_a_command(&self) -> bool {
        let number = self.room[0] % 64;
        self.held >= words(number) * WORD_BYTES
    }

    pub fn is_damaged(&self) -> bool {
        self.damage().contains(&true)
    }

    /// Which of 28's reasons hold, in 02's order.
    pub fn damage(&self) -> [bool; REASONS] {
        let before = self.taken.checked_sub(self.held);
        [
            self.held > MOST_HELD,
            self.room.iter().skip(self.held).any(|byte| *byte != 0),
            self.holds_a_command(),
            self.taken > CHECK_LIMIT,
            before.is_none(),
            before.is_some_and(|before| !before.is_multiple_of(WORD_BYTES)),
            !is_remembered(self.remembered.number),
            self.total > MOST_TOTAL,
        ]
    }
}

/// 0 for no refusal, or one of the grounds that these calls remember: 1 to 9 and, by
/// request #107, 19.
fn is_remembered(number: u32) -> bool {
    number <= Ground::SyncPipeMissing as u32 || number == Ground::UnassignedNumber as u32
}
