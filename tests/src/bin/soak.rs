//! `soak N`: N random calls over the exported functions, compared with the reference; a second number is the seed, and
//! `lines` before the first takes the functions that take lines.
//!
//! Under valgrind each call takes about fifty times as long; the tests run a sample of the calls so:
//!
//!     valgrind --quiet --error-exitcode=9 target/tests/release/soak 20000

use a6plan_tests::soak::{soak, soak_lines, FUNCTIONS, LINE_FUNCTIONS};
use std::env;

fn main() {
    let mut asked = env::args().skip(1).peekable();
    let lines = asked.next_if_eq("lines").is_some();
    let mut asked = asked.map(|word| word.parse().expect("a number"));
    let calls = asked.next().unwrap_or(1_000_000) as usize;
    let seed = asked.next().unwrap_or(1);
    if lines {
        for (function, met) in LINE_FUNCTIONS.iter().zip(soak_lines(seed, calls)) {
            println!("{function:<10} {met}");
        }
    } else {
        for (function, met) in FUNCTIONS.iter().zip(soak(seed, calls)) {
            println!("{function:<10} {met}");
        }
    }
}
