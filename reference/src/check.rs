//! The check of a whole list: grounds 1 to 9 and 19, and what caused 7 to 9.

use crate::answer::{Ground, Refusal};
use crate::kinds::{commands, is_draw, is_unassigned, words, Command, Sync};
use crate::marks::Marks;
use crate::registers::Registers;
use crate::words::{command_number, word_at, WORD_BYTES};

/// The longest list that the check takes, in bytes.
pub const CHECK_LIMIT: usize = 32_768;

/// The check's answer, and the state at its place: "The state after a list is
/// that after its last command; at a refusal, that before the refused command;
/// at 1 or 2, the starting one."
#[derive(Clone, Debug, PartialEq, Eq)]
pub struct Checked {
    /// The words in the list, or the refusal.
    pub outcome: Result<usize, Refusal>,
    /// Request #101: "For grounds 7, 8 and 9 .. the place of the command that
    /// caused it .. Its other answers give the list's whole words instead."
    pub cause: usize,
    pub marks: Marks,
    pub registers: Registers,
}

/// Whether a missing sync is a ground. "Repair passes over 7 to 9."
#[derive(Clone, Copy, Debug, PartialEq, Eq)]
pub enum Syncs {
    Demanded,
    PassedOver,
}

/// Checks a list.
pub fn check(list: &[u8]) -> Checked {
    walk(list, CHECK_LIMIT, Syncs::Demanded)
}

/// "Order: 1, 2; then commands from the first."
pub fn walk(list: &[u8], limit: usize, syncs: Syncs) -> Checked {
    let mut state = State::default();
    let outcome = length_test(list, limit).and_then(|()| walk_commands(list, &mut state, syncs));
    Checked {
        outcome,
        cause: cause(list, outcome),
        marks: state.marks,
        registers: state.registers,
    }
}

/// The place of the command that caused a missing sync, else the whole words.
fn cause(list: &[u8], outcome: Result<usize, Refusal>) -> usize {
    match outcome {
        Err(refusal) if is_missing_sync(refusal.ground) => cause_of_need(list, refusal.place),
        _ => list.len() / WORD_BYTES,
    }
}

fn is_missing_sync(ground: Ground) -> bool {
    matches!(
        ground,
        Ground::SyncLoadMissing | Ground::SyncTileMissing | Ground::SyncPipeMissing
    )
}

/// "The latest draw, textured draw or load that set the mark." A command sets the
/// mark that another needs cleared if it alone would make that other one miss a
/// sync.
fn cause_of_need(list: &[u8], place: usize) -> usize {
    let needy = command_number(word_at(list, place));
    let sets_the_mark = |command: &Command| {
        let marks = Marks::default().after(command.number());
        marks.missing_sync(needy).is_some()
    };
    commands(list)
        .take_while(|command| command.place < place)
        .filter(sets_the_mark)
        .last()
        .expect("a mark was set by a command")
        .place
}

/// Grounds 1 and 2.
pub fn length_test(list: &[u8], limit: usize) -> Result<(), Refusal> {
    let length = list.len();
    if length > limit {
        Err(Refusal::new(Ground::ListTooLong, limit / WORD_BYTES))
    } else if !length.is_multiple_of(WORD_BYTES) {
        Err(Refusal::new(Ground::PartialWord, length / WORD_BYTES))
    } else {
        Ok(())
    }
}

/// Grounds 1 to 3 alone: whether a list "decodes".
pub fn decodes(list: &[u8]) -> Result<(), Refusal> {
    length_test(list, CHECK_LIMIT)?;
    let end = list.len() / WORD_BYTES;
    let is_cut = |command: &Command| command.place + words(command.number()) > end;
    match commands(list).find(is_cut) {
        Some(cut) => Err(Refusal::new(Ground::CutCommand, cut.place)),
        None => Ok(()),
    }
}

fn walk_commands(list: &[u8], state: &mut State, syncs: Syncs) -> Result<usize, Refusal> {
    let end = list.len() / WORD_BYTES;
    for command in commands(list) {
        let words_left = end - command.place;
        if let Some(ground) = state.ground(command.number(), words_left, syncs) {
            return Err(Refusal::new(ground, command.place));
        }
        state.run(command.word);
    }
    Ok(end)
}

/// The state between two commands.
#[derive(Clone, Debug, Default, PartialEq, Eq)]
pub struct State {
    pub marks: Marks,
    pub registers: Registers,
    pub after_sync_full: bool,
}

impl State {
    /// "At one command 3, 4, 5, 6, then 7 to 9." Request #107: "19 .. after 4 and before
    /// 5".
    pub fn ground(&self, number: u8, words_left: usize, syncs: Syncs) -> Option<Ground> {
        if words(number) > words_left {
            Some(Ground::CutCommand)
        } else if self.after_sync_full {
            Some(Ground::AfterSyncFull)
        } else if is_unassigned(number) {
            Some(Ground::UnassignedNumber)
        } else if is_draw(number) && !self.registers.ready_to_draw() {
            Some(Ground::RegisterNotSet)
        } else if is_draw(number) && self.fills_four_bits() {
            Some(Ground::FillOnFourBits)
        } else if syncs == Syncs::Demanded {
            self.marks.missing_sync(number).map(missing)
        } else {
            None
        }
    }

    /// "FILL mode on a 4-bit image".
    fn fills_four_bits(&self) -> bool {
        self.registers.fill_mode() && self.registers.color_image().size == 0
    }

    /// Runs a command that has no ground against it.
    pub fn run(&mut self, word: u64) {
        let number = command_number(word);
        self.marks = self.marks.after(number);
        self.registers.run(word);
        self.after_sync_full = number == 0x29;
    }
}

/// "7, 8, 9: sync missing: Load, Tile, Pipe."
fn missing(sync: Sync) -> Ground {
    match sync {
        Sync::Load => Ground::SyncLoadMissing,
        Sync::Tile => Ground::SyncTileMissing,
        Sync::Pipe => Ground::SyncPipeMissing,
        Sync::Full => unreachable!("no command needs a Sync Full"),
    }
}
