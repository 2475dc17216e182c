//! The plain C version of the benchmark gives the reference's answers and bytes,
//! in the cases with which the archive is compared. It has no decoding,
//! no encoding and no index.

use reference::comparison::run::run;
use reference::plain;

const SEED: u64 = 11;
const CASES: u64 = 20_000;

#[test]
fn the_plain_version_agrees_with_the_reference() {
    let counts = run(&plain!(), SEED, 0..CASES).unwrap_or_else(|difference| {
        panic!("{difference}");
    });
    assert_eq!(counts.missing(), []);
}
