//! A run: every case through both sides.

use std::fmt;
use std::ops::Range;

use crate::comparison::calls::{Call, Function};
use crate::comparison::cases::calls;
use crate::comparison::counts::Counts;
use crate::comparison::laws;
use crate::comparison::lists::list;
use crate::comparison::portions::test_record;
use crate::comparison::rng::Rng;
use crate::comparison::side::{Reference, Side};
use crate::packed::Answer;
use crate::repair::without_syncs;
use crate::words::WORD_BYTES;

/// What went wrong first.
#[derive(Clone, Debug)]
pub struct Difference {
    pub seed: u64,
    pub case: u64,
    /// The call as it was made.
    pub call: Call,
    pub reference: Answer,
    pub other: Answer,
    pub what: String,
}

/// Runs these cases, and counts the grounds reached, up to the first difference.
pub fn run(other: &dyn Side, seed: u64, cases: Range<u64>) -> Result<Counts, Box<Difference>> {
    let mut counts = Counts::default();
    for case in cases {
        run_case(other, seed, case, &mut counts)?;
    }
    Ok(counts)
}

fn run_case(
    other: &dyn Side,
    seed: u64,
    case: u64,
    counts: &mut Counts,
) -> Result<(), Box<Difference>> {
    let mut rng = Rng::of_case(seed, case);
    let list = list(&mut rng, case);
    for call in calls(&mut rng, case, &list) {
        let compared = compare(other, &call);
        let outcome = compared.same().and_then(|()| {
            counts.count(call.function, compared.reference.number);
            compared.laws(other, &call, &mut rng, counts)
        });
        outcome.map_err(|what| {
            Box::new(Difference {
                seed,
                case,
                call: call.clone(),
                reference: compared.reference,
                other: compared.other,
                what,
            })
        })?;
    }
    Ok(())
}

/// A call made on both sides: the answers, and all buffers afterwards.
struct Compared {
    reference: Answer,
    other: Answer,
    reference_after: Call,
    other_after: Call,
}

fn compare(other: &dyn Side, call: &Call) -> Compared {
    let mut reference_after = call.clone();
    let mut other_after = call.clone();
    let reference = reference_after.make(&Reference);
    let other = other_after.make(other);
    Compared {
        reference: Answer::unpack(reference),
        other: Answer::unpack(other),
        reference_after,
        other_after,
    }
}

impl Compared {
    /// The same answer, and the same bytes in every buffer and every guard.
    fn same(&self) -> Result<(), String> {
        if self.reference != self.other {
            return Err("the answers differ".to_string());
        }
        if self.reference_after == self.other_after {
            return Ok(());
        }
        let (buffer, place) = self
            .reference_after
            .first_difference(&self.other_after)
            .expect("some buffer differs");
        Err(format!("buffer {buffer} differs first at {place}"))
    }

    /// The laws of an accepted repair, of a check's missing syncs, of a command's words
    /// and of drawing, for the call as it was made.
    fn laws(
        &self,
        other: &dyn Side,
        made: &Call,
        rng: &mut Rng,
        counts: &mut Counts,
    ) -> Result<(), String> {
        let call = &self.reference_after;
        let list = call.list.slice();
        match (call.function, self.reference.number) {
            (Function::Repair, 0) => self.repair_laws(rng, counts, list),
            (Function::Afresh, 0) => self.repair_laws(rng, counts, &without_syncs(list)),
            (Function::Check, 0) => laws::test_steps(other, list, self.reference),
            (Function::Check, 7..=9) => laws::test_steps(other, list, self.reference)
                .and_then(|()| laws::test_cause(list, self.reference)),
            (Function::Draw, _) => laws::test_afresh_drawing(other, made),
            (Function::Words, _) => laws::test_words(other, rng, call.word),
            (Function::Stream, _) => test_record(other, rng, list, &call.portions),
            _ => Ok(()),
        }
    }

    /// The laws of a repair that adds syncs to these commands.
    fn repair_laws(
        &self,
        rng: &mut Rng,
        counts: &mut Counts,
        remaining: &[u8],
    ) -> Result<(), String> {
        let answer = self.reference;
        let call = &self.reference_after;
        let written = &call.out.slice()[..answer.place as usize * WORD_BYTES];
        let searched = laws::test_repair(rng, remaining, written, answer.third)?;
        counts.searched += u64::from(searched);
        Ok(())
    }
}

impl fmt::Display for Difference {
    fn fmt(&self, f: &mut fmt::Formatter) -> fmt::Result {
        let name = self.call.function.name();
        writeln!(f, "{name}: {}", self.what)?;
        writeln!(f, "seed {}, case {}", self.seed, self.case)?;
        write!(f, "{}", self.call)?;
        writeln!(f, "reference: {}", parts(self.reference))?;
        writeln!(f, "other:     {}", parts(self.other))
    }
}

fn parts(answer: Answer) -> String {
    let Answer {
        number,
        place,
        third,
    } = answer;
    format!("number {number}, place {place}, third {third}")
}
