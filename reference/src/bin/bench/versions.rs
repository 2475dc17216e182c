//! The three versions that are measured.

use reference::comparison::foreign::{Check, Foreign};
use reference::comparison::mixed;
use reference::comparison::side::{Reference, Side};
use reference::{archive, plain};

pub struct Version {
    pub name: &'static str,
    pub side: &'static dyn Side,
    /// The registers after a list as one number, which crosses no C function of
    /// the library.
    pub registers: fn(&[u8]) -> u64,
}

/// The proved library.
static LIBRARY: Foreign = archive!();

/// The plain C version. Its question walks the list and reads no entry.
static PLAIN: Foreign = Foreign {
    index_ask: Some(plain_index_ask),
    ..plain!()
};

extern "C" {
    fn plain_index_ask(
        list: *const u8,
        list_length: usize,
        entries: *const u32,
        count: usize,
        place: u32,
    ) -> u64;
    fn lanyardrove_bench_registers(list: *const u8, list_length: usize) -> u64;
    fn plain_registers(list: *const u8, list_length: usize) -> u64;
}

/// A function of C that reads a list.
fn read(function: Check, list: &[u8]) -> u64 {
    unsafe { function(list.as_ptr(), list.len()) }
}

/// The versions in the order of the table's columns. The second is this crate.
pub const VERSIONS: [Version; 3] = [
    Version {
        name: "library",
        side: &LIBRARY,
        registers: |list| read(lanyardrove_bench_registers, list),
    },
    Version {
        name: "Rust",
        side: &Reference,
        registers: mixed::registers,
    },
    Version {
        name: "C",
        side: &PLAIN,
        registers: |list| read(plain_registers, list),
    },
];
