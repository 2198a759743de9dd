//! The programs that `rt ci` and `rt run` build, run.

use crate::tree::repository;
use std::io::Write;
use std::path::{Path, PathBuf};
use std::process::{Command, Stdio};

/// A program where it has been built; `rt ci` builds it, and `rt run` in its crate's folder.
pub fn built(program: &str) -> Option<PathBuf> {
    let path = repository().join("crates").join(program).join("out").join(program);
    if path.exists() {
        return Some(path);
    }
    println!("the program {program} is not there and is not run");
    None
}

/// All that a program writes for this input.
pub fn written(program: &Path, input: &[u8]) -> Vec<u8> {
    let mut child =
        Command::new(program).stdin(Stdio::piped()).stdout(Stdio::piped()).spawn().expect("the program starts");
    let mut stdin = child.stdin.take().expect("its input");
    // A program that has seen enough may stop reading.
    let _ = stdin.write_all(input);
    drop(stdin);
    child.wait_with_output().expect("the program ends").stdout
}
