//! With the features `compare` and `bench`, links the archive `liblanyardrove.a`
//! from the folder that the environment variable LANYARDROVE_LIB names. With the
//! features `registers` and `bench`, links `librdp_bench.a` from the folder that
//! LANYARDROVE_BENCH_LIB names. With the features `plain`, `registers` and `bench`,
//! compiles and links the plain C version.
//!
//! An archive may itself be written in Rust and then carries a panic handler or
//! parts of the standard library under the names that this program uses too, and
//! the two archives carry the same layers. So an archive's objects are first joined
//! into one, in which only the C functions keep their outside names.

use std::env;
use std::path::{Path, PathBuf};
use std::process::Command;

const FUNCTIONS: &[&str] = &[
    "lanyardrove_check",
    "lanyardrove_repair",
    "lanyardrove_draw",
    "lanyardrove_decode",
    "lanyardrove_encode",
    "lanyardrove_words",
    "lanyardrove_step",
    "lanyardrove_stream_feed",
    "lanyardrove_stream_close",
    "lanyardrove_translate",
    "lanyardrove_repair_afresh",
    "lanyardrove_compare",
    "lanyardrove_rest",
    "lanyardrove_index_build",
    "lanyardrove_index_ask",
    "lanyardrove_index_replace",
    "lanyardrove_view",
];
const BENCH_FUNCTIONS: &[&str] = &["lanyardrove_bench_registers"];

fn main() {
    println!("cargo:rerun-if-changed=build.rs");
    println!("cargo:rerun-if-env-changed=LANYARDROVE_LIB");
    println!("cargo:rerun-if-env-changed=LANYARDROVE_BENCH_LIB");
    println!("cargo:rerun-if-env-changed=CC");
    if has_feature("COMPARE") || has_feature("BENCH") {
        let object = sealed("LANYARDROVE_LIB", "lanyardrove", FUNCTIONS);
        link_into_programs(&["compare", "bench"], &object);
    }
    if has_feature("REGISTERS") {
        let object = sealed("LANYARDROVE_BENCH_LIB", "rdp_bench", BENCH_FUNCTIONS);
        link_into_programs(&["bench"], &object);
        link_into_tests(&object);
    }
    if has_feature("PLAIN") {
        link_plain();
    }
    if has_feature("BENCH") {
        name_compilers();
    }
}

fn has_feature(name: &str) -> bool {
    env::var_os(format!("CARGO_FEATURE_{name}")).is_some()
}

/// A file of that name among those that cargo keeps for this build.
fn output(name: &str) -> PathBuf {
    Path::new(&env::var("OUT_DIR").expect("cargo names a folder")).join(name)
}

fn link_into_programs(programs: &[&str], object: &Path) {
    for program in programs {
        println!("cargo:rustc-link-arg-bin={program}={}", object.display());
    }
}

fn link_into_tests(object: &Path) {
    println!("cargo:rustc-link-arg-tests={}", object.display());
}

/// An archive's objects joined into one that offers these functions alone. The
/// environment variable names the archive's folder.
fn sealed(variable: &str, name: &str, functions: &[&str]) -> PathBuf {
    let folder = env::var(variable);
    let folder = folder.unwrap_or_else(|_| panic!("{variable} names the folder of lib{name}.a"));
    let archive = Path::new(&folder).join(format!("lib{name}.a"));
    let object = output(&format!("{name}.o"));
    println!("cargo:rerun-if-changed={}", archive.display());
    let mut join = Command::new("ld");
    join.args(["-r", "--force-group-allocation", "-o"])
        .arg(&object);
    let mut hide = Command::new("objcopy");
    for function in functions {
        join.args(["-u", function]);
        hide.args(["--keep-global-symbol", function]);
    }
    run(join.arg(archive));
    run(hide.arg(&object));
    object
}

fn link_plain() {
    let source = "../bench/plain.c";
    let object = output("plain.o");
    println!("cargo:rerun-if-changed={source}");
    println!("cargo:rerun-if-changed=../bench/plain.h");
    run(Command::new(c_compiler())
        .args(["-O2", "-Wall", "-Wextra", "-c", source, "-o"])
        .arg(&object));
    link_into_programs(&["bench"], &object);
    link_into_tests(&object);
}

fn c_compiler() -> String {
    env::var("CC").unwrap_or("cc".to_string())
}

/// The compilers' versions, for the benchmark's heading.
fn name_compilers() {
    let rustc = env::var("RUSTC").expect("cargo names the compiler");
    println!("cargo:rustc-env=BENCH_RUSTC={}", version_of(&rustc));
    println!("cargo:rustc-env=BENCH_CC={}", version_of(&c_compiler()));
}

/// The first line of what a compiler says of its version.
fn version_of(compiler: &str) -> String {
    let output = Command::new(compiler).arg("--version").output();
    let output = output.expect("the compiler runs");
    let text = String::from_utf8_lossy(&output.stdout);
    text.lines().next().unwrap_or_default().to_string()
}

fn run(command: &mut Command) {
    let status = command.status().expect("the tool runs");
    assert!(status.success(), "{command:?} failed");
}
