//! Compares the reference with `liblanyardrove.a`.
//!
//! `compare [SEED] [CASES] [FIRST]` runs CASES cases (200,000 if not given) from
//! case FIRST on (0 if not given). It stops at the first difference.

use std::env;
use std::process::ExitCode;

use reference::archive;
use reference::comparison::foreign::Foreign;
use reference::comparison::run::run;

static ARCHIVE: Foreign = archive!();

/// The arguments: seed, number of cases, first case.
fn arguments() -> Option<(u64, u64, u64)> {
    let mut numbers = [1, 200_000, 0];
    for (index, argument) in env::args().skip(1).enumerate() {
        *numbers.get_mut(index)? = argument.parse().ok()?;
    }
    let [seed, cases, first] = numbers;
    Some((seed, cases, first))
}

fn main() -> ExitCode {
    let Some((seed, cases, first)) = arguments() else {
        eprintln!("usage: compare [SEED] [CASES] [FIRST]");
        return ExitCode::from(2);
    };
    match run(&ARCHIVE, seed, first..first + cases) {
        Err(difference) => {
            print!("{difference}");
            ExitCode::FAILURE
        }
        Ok(counts) => {
            println!("seed {seed}, {cases} cases from {first}: no difference");
            print!("{counts}");
            let missing = counts.missing();
            for (function, ground) in &missing {
                println!("never reached: {} {ground}", function.name());
            }
            ExitCode::from(u8::from(!missing.is_empty()))
        }
    }
}
