//! The repair: the least syncs that make a list pass. Request #109: the same for a list
//! whose own syncs are forgotten.
//!
//! Method: plans grow from the first command on. For each state of the marks
//! that some plan reaches, the best plan is kept whole, and plans are compared
//! as 01 compares them: first by cycles, then by what stands before each
//! command. What may follow depends on the marks alone, so a plan that is
//! behind another one with the same marks stays behind.

use std::collections::BTreeMap;

use crate::answer::{write_front, Ground, Refusal};
use crate::check::{walk, Syncs};
use crate::kinds::{commands, is_short_sync, words, Command, Sync};
use crate::marks::Marks;
use crate::words::WORD_BYTES;

/// The longest list that the repair takes, in bytes.
pub const REPAIR_LIMIT: usize = 16_384;

/// The bytes of the work buffer for each command.
pub const WORK_BYTES: usize = 16;

/// What a plan puts before a command, in 01's order of ties: "nothing goes
/// before Load, Load before Tile, Tile before Pipe."
#[derive(Clone, Copy, Debug, PartialEq, Eq, PartialOrd, Ord)]
pub enum Add {
    Nothing,
    Load,
    Tile,
    Pipe,
}

impl Add {
    pub const ALL: [Add; 4] = [Add::Nothing, Add::Load, Add::Tile, Add::Pipe];

    pub fn sync(self) -> Option<Sync> {
        match self {
            Add::Nothing => None,
            Add::Load => Some(Sync::Load),
            Add::Tile => Some(Sync::Tile),
            Add::Pipe => Some(Sync::Pipe),
        }
    }

    /// "25 for each Load taken out, 33 for each Tile and 50 for each Pipe."
    pub fn cycles(self) -> u32 {
        self.sync().map_or(0, Sync::cycles)
    }

    /// "Adds are words 0x26, 0x27 or 0x28 in bits 61:56, all other bits 0."
    pub fn word(self) -> Option<u64> {
        match self {
            Add::Nothing => None,
            Add::Load => Some(0x26 << 56),
            Add::Tile => Some(0x28 << 56),
            Add::Pipe => Some(0x27 << 56),
        }
    }
}

/// What stands before each command. Plans are ordered by their cycles, and
/// equal ones by the first command where they differ.
#[derive(Clone, Debug, PartialEq, Eq, PartialOrd, Ord)]
pub struct Plan {
    pub cycles: u32,
    pub adds: Vec<Add>,
}

/// A repair's success.
#[derive(Clone, Copy, Debug, PartialEq, Eq)]
pub struct Repaired {
    pub words: usize,
    pub cycles: u32,
}

/// Repairs a list into `out`. "Repair passes over 7 to 9, then tests 13, 14."
/// "On success and at 14 the work buffer's first 16 bytes a command are left
/// zero, the rest as received."
pub fn repair(list: &[u8], work: &mut [u8], out: &mut [u8]) -> Result<Repaired, Refusal> {
    judge(list, work)?;
    write_least(list, out)
}

/// Request #109: "A second repair forgets the Load, Tile and Pipe syncs present and
/// chooses afresh", so that "the answer's cycles are the total". Refusals are "judged on
/// the list as given; the work buffer goes by its commands too".
pub fn repair_afresh(list: &[u8], work: &mut [u8], out: &mut [u8]) -> Result<Repaired, Refusal> {
    judge(list, work)?;
    write_least(&without_syncs(list), out)
}

/// The commands of a list that are no Sync Load, Tile or Pipe.
pub fn without_syncs(list: &[u8]) -> Vec<u8> {
    let kept = commands(list).filter(|command| !is_short_sync(command.number()));
    kept.flat_map(|command| bytes_of_command(list, command))
        .copied()
        .collect()
}

/// Refuses all but 14, and clears the work buffer.
fn judge(list: &[u8], work: &mut [u8]) -> Result<(), Refusal> {
    walk(list, REPAIR_LIMIT, Syncs::PassedOver).outcome?;
    let count = commands(list).count();
    let work_needed = count * WORK_BYTES;
    if work.len() < work_needed {
        return Err(Refusal::new(Ground::WorkTooShort, count));
    }
    work[..work_needed].fill(0);
    Ok(())
}

/// Writes a list with its least plan, or refuses by 14.
fn write_least(list: &[u8], out: &mut [u8]) -> Result<Repaired, Refusal> {
    let given: Vec<Command> = commands(list).collect();
    let plan = least_plan(&given);
    let repaired = with_plan(list, &given, &plan.adds);
    let words = repaired.len() / WORD_BYTES;
    write_front(out, &repaired, words)?;
    Ok(Repaired {
        words,
        cycles: plan.cycles,
    })
}

/// The least plan that is first in the order of ties.
pub fn least_plan(given: &[Command]) -> Plan {
    let nothing = Plan {
        cycles: 0,
        adds: Vec::new(),
    };
    let mut plans = BTreeMap::from([(Marks::default(), nothing)]);
    for command in given {
        plans = grow(&plans, command.number());
    }
    plans
        .into_values()
        .min()
        .expect("a Pipe before every command always serves")
}

/// The best plan up to and with one more command, for each state of the marks.
fn grow(plans: &BTreeMap<Marks, Plan>, number: u8) -> BTreeMap<Marks, Plan> {
    let mut grown = BTreeMap::new();
    for (marks, plan) in plans {
        for add in Add::ALL {
            let ready = add.sync().map_or(*marks, |sync| marks.after_sync(sync));
            if ready.missing_sync(number).is_none() {
                keep_first(&mut grown, ready.after(number), plan.followed_by(add));
            }
        }
    }
    grown
}

/// Keeps a plan unless one with the same marks goes before it.
fn keep_first(plans: &mut BTreeMap<Marks, Plan>, marks: Marks, plan: Plan) {
    let goes_before = plans.get(&marks).is_none_or(|kept| plan < *kept);
    if goes_before {
        plans.insert(marks, plan);
    }
}

impl Plan {
    fn followed_by(&self, add: Add) -> Plan {
        let mut adds = Vec::with_capacity(self.adds.len() + 1);
        adds.extend_from_slice(&self.adds);
        adds.push(add);
        Plan {
            cycles: self.cycles + add.cycles(),
            adds,
        }
    }
}

/// The list with a plan's adds in it.
pub fn with_plan(list: &[u8], given: &[Command], adds: &[Add]) -> Vec<u8> {
    let mut repaired = Vec::with_capacity(2 * list.len());
    for (command, add) in given.iter().zip(adds) {
        if let Some(word) = add.word() {
            repaired.extend_from_slice(&word.to_be_bytes());
        }
        repaired.extend_from_slice(bytes_of_command(list, *command));
    }
    repaired
}

/// All words of a command of a list.
pub fn bytes_of_command(list: &[u8], command: Command) -> &[u8] {
    let end = command.place + words(command.number());
    &list[command.place * WORD_BYTES..end * WORD_BYTES]
}
