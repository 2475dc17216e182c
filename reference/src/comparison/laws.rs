//! What must hold of every repair and every cause, shown by the check alone: it
//! decides which plans pass, and which sync comes too early. And what must hold
//! between a side's own functions: lengths and decoding, steps and the check.

use crate::check::{check, CHECK_LIMIT};
use crate::comparison::calls::Call;
use crate::comparison::rng::Rng;
use crate::comparison::side::Side;
use crate::kinds::{commands, wait, words_from, Command};
use crate::packed::Answer;
use crate::repair::{bytes_of_command, with_plan, Add, WORK_BYTES};
use crate::words::{word_at, WORD_BYTES};

/// Lists of up to this many commands are searched every time.
const ALWAYS_SEARCHED: usize = 6;

/// Lists of up to this many commands are searched now and then.
const SOMETIMES_SEARCHED: usize = 9;

/// The most fields that a command has.
const MOST_FIELDS: usize = 37;

/// Decoding's answer for a cut command: 3 at 0.
const CUT: u64 = 3 << 56;

/// The first of the grounds of a missing sync, which stand in the order of syncs.
const SYNC_LOAD_MISSING: u32 = 7;

/// Tests an accepted repair; answers whether its plan was compared with all
/// others, or what is wrong.
pub fn test_repair(
    rng: &mut Rng,
    list: &[u8],
    written: &[u8],
    cycles: u32,
) -> Result<bool, String> {
    test_written(list, written, cycles)?;
    let count = commands(list).count();
    let searched = count <= ALWAYS_SEARCHED || (count <= SOMETIMES_SEARCHED && rng.one_in(8));
    if searched {
        test_least(list, written, cycles)?;
    }
    Ok(searched)
}

/// The written list passes, and its cycles are the sum over the added words.
fn test_written(list: &[u8], written: &[u8], cycles: u32) -> Result<(), String> {
    if check(written).outcome.is_err() {
        return Err("the repaired list does not pass the check".to_string());
    }
    if sync_cycles(written) != sync_cycles(list) + cycles {
        return Err("the cycles are not the sum over the added syncs".to_string());
    }
    Ok(())
}

/// The cycles of all Sync Load, Tile and Pipe of a list.
pub fn sync_cycles(list: &[u8]) -> u32 {
    commands(list).map(|command| wait(command.number())).sum()
}

/// No plan has fewer cycles, and of those with as many the written one is first
/// in the order of ties.
fn test_least(list: &[u8], written: &[u8], cycles: u32) -> Result<(), String> {
    let given: Vec<Command> = commands(list).collect();
    let search = Search {
        list,
        given: &given,
        cycles,
    };
    if search.cheaper_plan(0, &mut Vec::new(), 0) {
        return Err("a plan with fewer cycles passes".to_string());
    }
    let mut adds = Vec::new();
    if !search.first_plan(&mut Vec::new(), &mut adds, 0) {
        return Err("no plan with these cycles passes".to_string());
    }
    if with_plan(list, &given, &adds) != written {
        return Err("another least plan is first in the order of ties".to_string());
    }
    Ok(())
}

/// A search among all plans for a list.
struct Search<'a> {
    list: &'a [u8],
    given: &'a [Command],
    /// The cycles of the answer.
    cycles: u32,
}

impl Search<'_> {
    /// Whether a plan with up to two syncs in each gap, the last one included,
    /// passes with fewer cycles than the answer. `prefix` is the new list before
    /// this gap. What does not pass does not pass with more words after it.
    fn cheaper_plan(&self, gap: usize, prefix: &mut Vec<u8>, cycles: u32) -> bool {
        if cycles >= self.cycles || check(prefix).outcome.is_err() {
            return false;
        }
        if gap > self.given.len() {
            return true;
        }
        let length = prefix.len();
        gap_choices().any(|(first, second)| {
            push_add(prefix, first);
            push_add(prefix, second);
            self.push_command(prefix, gap);
            let cycles = cycles + first.cycles() + second.cycles();
            let found = self.cheaper_plan(gap + 1, prefix, cycles);
            prefix.truncate(length);
            found
        })
    }

    /// Finds the first plan, in the order of ties, that passes with the answer's
    /// cycles: at most one sync before each command, none at the end.
    fn first_plan(&self, prefix: &mut Vec<u8>, adds: &mut Vec<Add>, cycles: u32) -> bool {
        if cycles > self.cycles || check(prefix).outcome.is_err() {
            return false;
        }
        if adds.len() == self.given.len() {
            return cycles == self.cycles;
        }
        let length = prefix.len();
        for add in Add::ALL {
            push_add(prefix, add);
            self.push_command(prefix, adds.len());
            adds.push(add);
            if self.first_plan(prefix, adds, cycles + add.cycles()) {
                return true;
            }
            adds.pop();
            prefix.truncate(length);
        }
        false
    }

    /// Appends the command after a gap; after the last gap there is none.
    fn push_command(&self, prefix: &mut Vec<u8>, gap: usize) {
        if let Some(command) = self.given.get(gap) {
            prefix.extend_from_slice(bytes_of_command(self.list, *command));
        }
    }
}

/// What may stand in a gap: nothing, one sync, or two.
fn gap_choices() -> impl Iterator<Item = (Add, Add)> {
    let two = |first: Add| Add::ALL.into_iter().map(move |second| (first, second));
    Add::ALL
        .into_iter()
        .flat_map(two)
        .filter(|(first, second)| *first != Add::Nothing || *second == Add::Nothing)
}

fn push_add(prefix: &mut Vec<u8>, add: Add) {
    if let Some(word) = add.word() {
        prefix.extend_from_slice(&word.to_be_bytes());
    }
}

/// Tests the cause that a check gave at 7, 8 or 9: a Sync Pipe right after that
/// command serves the refused one, and right before it does not. Only the latest
/// command that set the mark is such a one.
pub fn test_cause(list: &[u8], answer: Answer) -> Result<(), String> {
    let (place, cause) = (answer.place as usize, answer.third as usize);
    let Some(command) = commands(list).find(|command| command.place == cause) else {
        return Err("no command stands at the cause".to_string());
    };
    let end = place + words_from(word_at(list, place));
    let judged = &list[..end * WORD_BYTES];
    if judged.len() == CHECK_LIMIT {
        return Ok(());
    }
    let after = with_pipe(judged, cause + words_from(command.word));
    if check(&after).outcome.is_err() {
        return Err("a Sync Pipe after the cause does not serve".to_string());
    }
    let before = check(&with_pipe(judged, cause)).outcome.err();
    let refused = before.map(|refusal| (refusal.ground as u8, refusal.place));
    if refused != Some((answer.number, place + 1)) {
        return Err("a Sync Pipe before the cause serves".to_string());
    }
    Ok(())
}

/// A list with a Sync Pipe before a place.
fn with_pipe(list: &[u8], place: usize) -> Vec<u8> {
    let (before, after) = list.split_at(place * WORD_BYTES);
    let mut longer = before.to_vec();
    push_add(&mut longer, Add::Pipe);
    longer.extend_from_slice(after);
    longer
}

/// Request #113: a list that passes the check and its second repair, where a side gives
/// it, are drawn alike by that side: the same refusal number, and the same bytes.
pub fn test_afresh_drawing(side: &dyn Side, drawn: &Call) -> Result<(), String> {
    let list = drawn.list.slice();
    let mut work = vec![0; list.len() / WORD_BYTES * WORK_BYTES];
    let mut out = vec![0; 2 * list.len()];
    let repaired = Answer::unpack(side.repair_afresh(list, &mut work, &mut out));
    if check(list).outcome.is_err() || repaired.number != 0 {
        return Ok(());
    }
    let afresh = &out[..repaired.place as usize * WORD_BYTES];
    let picture = |list: &[u8]| {
        let mut memory = drawn.memory.slice().to_vec();
        let mut texture = drawn.texture.slice().to_vec();
        let answer = side.draw(list, &mut memory, drawn.start, &mut texture);
        (Answer::unpack(answer).number, memory, texture)
    };
    if picture(list) != picture(afresh) {
        return Err("the list and its second repair are drawn otherwise".to_string());
    }
    Ok(())
}

/// Tests that a side's decoding takes exactly the words that its lengths give: a byte
/// less is 3 at 0, and further bytes change nothing.
pub fn test_words(side: &dyn Side, rng: &mut Rng, first_word: u64) -> Result<(), String> {
    let length = side.words(first_word) as usize * WORD_BYTES;
    let further = rng.between(1, 200) as usize;
    let mut list = first_word.to_be_bytes().to_vec();
    list.extend(rng.bytes(length - WORD_BYTES + further));
    let decoded = |length: usize| {
        let mut fields = [0; MOST_FIELDS];
        (side.decode(&list[..length], &mut fields), fields)
    };
    let whole = decoded(length);
    if Answer::unpack(whole.0).number != 0 {
        return Err("decoding takes more words".to_string());
    }
    if decoded(length - 1) != (CUT, [0; MOST_FIELDS]) {
        return Err("decoding takes fewer words".to_string());
    }
    if decoded(list.len()) != whole {
        return Err("decoding takes bytes beyond the words".to_string());
    }
    Ok(())
}

/// Tests that a side's steps along a list miss a sync first where the check says so,
/// or nowhere.
pub fn test_steps(side: &dyn Side, list: &[u8], checked: Answer) -> Result<(), String> {
    let refused = checked.number != 0;
    let expected = refused.then_some((u32::from(checked.number), checked.place as usize));
    if first_missing(side, list) != expected {
        return Err("the steps along the list do not miss the same sync first".to_string());
    }
    Ok(())
}

/// The ground and the place of the first sync that a side's steps miss.
fn first_missing(side: &dyn Side, list: &[u8]) -> Option<(u32, usize)> {
    let mut hazards = 0;
    commands(list).find_map(|command| {
        let step = Answer::unpack(side.step(hazards, u32::from(command.number())));
        hazards = step.place;
        let ground = step.third % 4 + SYNC_LOAD_MISSING - 1;
        (step.third != 0).then_some((ground, command.place))
    })
}
