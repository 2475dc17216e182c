//! The table, in Markdown.

use std::fs;

use crate::timing::Measured;

/// The machine, the compilers and what else the machine did.
pub fn print_heading() {
    println!("{} x {}", cores(), processor());
    println!("{}", env!("BENCH_RUSTC"));
    println!("{}, -O2", env!("BENCH_CC"));
    let load = fs::read_to_string("/proc/loadavg").unwrap_or_default();
    println!("load average at the start: {}", load.trim());
    println!();
}

fn cores() -> usize {
    std::thread::available_parallelism().map_or(0, usize::from)
}

fn processor() -> String {
    let all = fs::read_to_string("/proc/cpuinfo").unwrap_or_default();
    let line = all.lines().find(|line| line.starts_with("model name"));
    let name = line.and_then(|line| line.split(": ").nth(1));
    name.unwrap_or("an unknown processor").to_string()
}

pub fn print_columns() {
    print_cells(
        "nanoseconds a call, and the library's speed",
        &["library", "Rust", "C", "mem*", "/ Rust", "/ C", "/ mem*"].map(str::to_string),
    );
    println!("|---|--:|--:|--:|--:|--:|--:|--:|");
}

/// What was measured of the library, Rust and C, and where the row draws of memset
/// (fills) or memcpy (textures).
pub fn print_row(name: &str, measured: &[Measured]) {
    let nanoseconds = |index: usize| cell(measured.get(index).map(|m| m.nanoseconds), 0);
    let ratio = |index: usize| cell(measured.get(index).map(|m| m.ratio), 2);
    print_cells(
        name,
        &[
            nanoseconds(0),
            nanoseconds(1),
            nanoseconds(2),
            nanoseconds(3),
            ratio(1),
            ratio(2),
            ratio(3),
        ],
    );
}

fn cell(number: Option<f64>, digits: usize) -> String {
    number.map_or(String::new(), |number| format!("{number:.digits$}"))
}

fn print_cells(name: &str, cells: &[String; 7]) {
    print!("| {name:<43} |");
    for cell in cells {
        print!(" {cell:>9} |");
    }
    println!();
}
