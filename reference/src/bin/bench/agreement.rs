//! Before anything is measured: all versions must accept every list, give the same
//! registers and leave the same bytes.

use std::ops::Range;

use crate::rows::{Buffers, Job, Moved, Row};
use crate::versions::{Version, VERSIONS};

/// What differs, if anything does.
pub fn test(row: &Row) -> Result<(), String> {
    let expected = outcome(row, &VERSIONS[0]);
    for version in &VERSIONS {
        if outcome(row, version) != expected {
            let (row, name) = (&row.name, version.name);
            return Err(format!("{row}: {name} differs from the first"));
        }
    }
    let (answer, mut buffers) = expected;
    let answer = match row.job {
        Job::Registers => VERSIONS[0].side.check(&row.list),
        _ => answer,
    };
    if answer >> 56 != 0 {
        return Err(format!("{}: refused with {answer:#018x}", row.name));
    }
    let (memory, texture) = buffers.drawn();
    match &row.job {
        Job::Draw(runs) => test_runs(row, runs, memory),
        Job::Copy(moved) => test_runs(row, &all_of(moved, |m| &m.memory), memory),
        Job::Load(moved) => test_runs(row, &all_of(moved, |m| &m.texture), texture),
        _ => Ok(()),
    }
}

fn all_of(moved: &[Moved], which: fn(&Moved) -> &Range<usize>) -> Vec<Range<usize>> {
    moved.iter().map(|moved| which(moved).clone()).collect()
}

/// A version's answer and all that it was lent, afterwards.
fn outcome(row: &Row, version: &Version) -> (u64, Buffers) {
    let mut buffers = Buffers::new(row);
    let answer = row.call(version, &mut buffers);
    (answer, buffers)
}

/// What is written was zero, and no colour or texel has a zero byte: the runs for
/// memset or memcpy must be the bytes written.
fn test_runs(row: &Row, runs: &[Range<usize>], bytes: &[u8]) -> Result<(), String> {
    let mut written = vec![false; bytes.len()];
    for run in runs {
        written[run.clone()].fill(true);
    }
    if bytes.iter().map(|byte| *byte != 0).eq(written) {
        Ok(())
    } else {
        Err(format!("{}: other bytes are written than meant", row.name))
    }
}
