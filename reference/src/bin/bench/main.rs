//! The benchmark: the proved library beside this crate and the plain C version,
//! on the same lists in one run. Greater ratios are a faster library. With an argument
//! only the rows are measured whose names hold it.

mod agreement;
mod lists;
mod report;
mod rows;
mod timing;
mod versions;

use std::ops::Range;
use std::process::ExitCode;

use rows::{Buffers, Job, Moved, Row};
use timing::{Measured, Turn};
use versions::VERSIONS;

fn main() -> ExitCode {
    let wanted = std::env::args().nth(1).unwrap_or_default();
    let mut rows = rows::rows();
    rows.retain(|row| row.name.contains(&wanted));
    for row in &rows {
        if let Err(difference) = agreement::test(row) {
            eprintln!("{difference}");
            return ExitCode::FAILURE;
        }
    }
    report::print_heading();
    report::print_columns();
    for row in &rows {
        report::print_row(&row.name, &measure(row));
    }
    ExitCode::SUCCESS
}

/// The versions in their order, and where the row draws memset or memcpy of the bytes.
fn measure(row: &Row) -> Vec<Measured> {
    let mut turns: Vec<Turn> = Vec::new();
    for version in &VERSIONS {
        turns.push(Box::new(move |buffers| row.call(version, buffers)));
    }
    match &row.job {
        Job::Draw(runs) => turns.push(Box::new(move |buffers| set_runs(buffers, runs))),
        Job::Copy(moved) => turns.push(Box::new(move |buffers| copy_runs(buffers, moved))),
        Job::Load(moved) => turns.push(Box::new(move |buffers| load_runs(buffers, moved))),
        _ => (),
    }
    timing::measure(&turns, &mut Buffers::new(row))
}

/// The runs set to one byte, which `fill` does by memset.
fn set_runs(buffers: &mut Buffers, runs: &[Range<usize>]) -> u64 {
    let memory = buffers.memory();
    for run in runs {
        memory[run.clone()].fill(0x5A);
    }
    0
}

/// The runs copied from texture memory, which `copy_from_slice` does by memcpy.
fn copy_runs(buffers: &mut Buffers, all: &[Moved]) -> u64 {
    let (memory, texture) = buffers.drawn();
    for moved in all {
        memory[moved.memory.clone()].copy_from_slice(&texture[moved.texture.clone()]);
    }
    0
}

/// The runs copied to texture memory.
fn load_runs(buffers: &mut Buffers, all: &[Moved]) -> u64 {
    let (memory, texture) = buffers.drawn();
    for moved in all {
        texture[moved.texture.clone()].copy_from_slice(&memory[moved.memory.clone()]);
    }
    0
}
