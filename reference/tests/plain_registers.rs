//! The registers after a list as one number: the library's, the plain C version's
//! and this crate's are the same, in the lists with which the archive is compared.

use std::collections::BTreeSet;

use reference::comparison::lists::list;
use reference::comparison::mixed;
use reference::comparison::rng::Rng;
use reference::packed;

extern "C" {
    fn lanyardrove_bench_registers(list: *const u8, list_length: usize) -> u64;
    fn plain_registers(list: *const u8, list_length: usize) -> u64;
}

const SEED: u64 = 12;
const CASES: u64 = 20_000;

#[test]
fn the_registers_agree() {
    let mut answers = BTreeSet::new();
    for case in 0..CASES {
        let list = list(&mut Rng::of_case(SEED, case), case);
        let expected = mixed::registers(&list);
        let library = unsafe { lanyardrove_bench_registers(list.as_ptr(), list.len()) };
        let plain = unsafe { plain_registers(list.as_ptr(), list.len()) };
        assert_eq!(library, expected, "the library, case {case}");
        assert_eq!(plain, expected, "the plain version, case {case}");
        answers.insert(packed::check(&list) >> 56);
    }
    assert_eq!(answers, (0..10).chain([19]).collect());
}
