//! A million random calls over all exported functions, each compared with the reference, outputs guarded on both sides;
//! and a sample of them under valgrind.

use a6plan_tests::soak::{soak, soak_lines, FUNCTIONS, LINE_FUNCTIONS};
use std::io::{stderr, Write};
use std::process::Command;

/// Calls in each half.
const CALLS: usize = 500_000;

/// Calls of the functions that take lines.
const LINES: usize = 200_000;

/// Calls under valgrind, and their seed.
const SAMPLE: [&str; 2] = ["20000", "63"];

/// The numbers that the readers and the writers can give, in both layouts.
const READ: &[u32] = &[0, 5, 10, 11, 12, 13];
const WRITE: &[u32] = &[0, 5, 7, 10, 12];

/// The numbers that each function can give.
const NUMBERS: [&[u32]; FUNCTIONS.len()] = [
    &[0, 4, 5],
    READ,
    WRITE,
    READ,
    WRITE,
    &[0, 1, 2, 3, 5],
    &[0, 5],
    &[0, 1, 2, 3, 4, 5, 6, 7],
    &[0, 1, 2, 3, 4, 5, 6, 8],
    &[0, 1, 2, 3, 4, 5, 7, 9],
];
const LINE_NUMBERS: [&[u32]; LINE_FUNCTIONS.len()] = [&[0, 2, 5, 23], &[0, 5, 20, 21, 22, 23]];

/// Half of the calls. Every function is called often, and gives each of its numbers and no other.
fn half(seed: u64) {
    let met = soak(seed, CALLS);
    assert_eq!(met.iter().map(|met| met.all()).sum::<usize>(), CALLS);
    for ((function, met), may) in FUNCTIONS.iter().zip(&met).zip(NUMBERS) {
        assert!(met.all() > CALLS / 12, "{function}");
        met.are(function, may, CALLS / 1_000);
    }
}

#[test]
fn one_half_of_a_million_calls() {
    half(61);
}

#[test]
fn the_other_half_of_a_million_calls() {
    half(62);
}

#[test]
fn calls_of_the_functions_that_take_lines() {
    let met = soak_lines(63, LINES);
    assert_eq!(met.iter().map(|met| met.all()).sum::<usize>(), LINES);
    for ((function, met), may) in LINE_FUNCTIONS.iter().zip(&met).zip(LINE_NUMBERS) {
        assert!(met.all() > LINES / 3, "{function}");
        met.are(function, may, LINES / 400);
    }
}

/// Valgrind sees octets read or written outside what was lent, and unset ones that decide something. Where it is not
/// installed nothing is run, and a line says so; it goes to standard error itself, past the test runner, which keeps
/// what a test prints when it passes.
fn sample(words: &[&str], functions: usize) {
    if Command::new("valgrind").arg("--version").output().is_err() {
        writeln!(stderr(), "SKIPPED: a sample of the calls under valgrind, which is not installed").expect("a line");
        return;
    }
    let mut valgrind = Command::new("valgrind");
    valgrind.args(["--quiet", "--error-exitcode=9", env!("CARGO_BIN_EXE_soak")]).args(words);
    let run = valgrind.output().expect("valgrind runs");
    assert!(run.status.success(), "{}: {}", run.status, String::from_utf8_lossy(&run.stderr));
    assert_eq!(String::from_utf8_lossy(&run.stdout).lines().count(), functions);
}

#[test]
fn a_sample_of_the_calls_under_valgrind() {
    sample(&SAMPLE, FUNCTIONS.len());
}

#[test]
fn a_sample_of_the_calls_on_lines_under_valgrind() {
    sample(&["lines", "4000", "64"], LINE_FUNCTIONS.len());
}
