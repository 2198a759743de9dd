//! In how small a stack a call comes back that calls itself deeply.

use crate::generate::plan::{a6_record, dname_record, name};
use crate::reference::plan::FIGURES;
use crate::{ffi, reference};
use std::env;
use std::process::{Command, Stdio};
use std::thread;

/// A call that goes so deep.
#[derive(Clone, Copy)]
pub enum Deep {
    /// A lookup of a chain of so many records.
    Chain(usize),
    /// A reverse lookup of so many rewrites.
    Walk(usize),
}

/// The smallest stacks, in KiB, in which the call comes back: the library's and the reference's. What the thread itself
/// needs is in them.
pub fn least(call: Deep) -> [f64; 2] {
    [0, 1].map(|side| {
        let (mut less, mut enough) = (16, 4_096);
        while enough - less > 4 {
            let size = (less + enough) / 8 * 4;
            *(if comes_back(side, call, size) { &mut enough } else { &mut less }) = size;
        }
        enough as f64
    })
}

/// Whether the call comes back, tried in a process of its own.
fn comes_back(side: usize, call: Deep, size: usize) -> bool {
    let (kind, depth) = match call {
        Deep::Chain(depth) => (0, depth),
        Deep::Walk(depth) => (1, depth),
    };
    let words = [side, kind, depth, size].map(|word| word.to_string());
    let mut child = Command::new(env::current_exe().expect("this program"));
    child.arg("stack-of").args(words).stderr(Stdio::null()).status().expect("this program runs").success()
}

/// `bench stack-of SIDE KIND DEPTH KIB`: one call, kind 0 a chain and kind 1 a walk, in a thread with a stack of this size.
pub fn try_one(words: &[String]) {
    let numbers: Vec<usize> = words.iter().map(|word| word.parse().expect("a number")).collect();
    let [side, kind, depth, size] = numbers[..] else { panic!("four numbers") };
    let call = [look_up, walk][kind];
    let (table, name) = [chain, delegations][kind](depth);
    let thread = thread::Builder::new().stack_size(size << 10).spawn(move || call(side, depth, &table, &name));
    thread.expect("a thread").join().expect("the call comes back");
}

fn look_up(side: usize, records: usize, table: &[u8], name: &[u8]) {
    let lookup = [ffi::lookup, reference::forward::lookup][side];
    let (mut out, mut ttls, mut figures) = (vec![0; 16], vec![0; 1], vec![0; FIGURES]);
    assert_eq!(lookup(table, name, records as u32, &mut out, &mut ttls, &mut figures), 0);
}

fn walk(side: usize, rewrites: usize, table: &[u8], address: &[u8]) {
    let reverse = [ffi::reverse, reference::reverse::lookup][side];
    let (mut out, mut figures) = (vec![0; 255], vec![0; FIGURES]);
    assert_eq!(reverse(table, address, rewrites as u8, &mut out, &mut figures), 0);
    assert_eq!(figures[1] as usize, rewrites);
}

/// A chain of so many records, one name after another, and its first name.
fn chain(records: usize) -> (Vec<u8>, Vec<u8>) {
    let step = |step: usize| name(&format!("n{step}.deep"));
    let mut table: Vec<u8> = (1..records).flat_map(|at| a6_record(&step(at), 64, at as u128, &step(at + 1))).collect();
    table.extend(a6_record(&step(records), 0, 1 << 64, &[]));
    (table, step(1))
}

/// So many DNAMEs, each from the target of the one before, and an address whose reverse name they rewrite in turn.
fn delegations(rewrites: usize) -> (Vec<u8>, Vec<u8>) {
    let step = |step: usize| name(&if step == 0 { "IP6.ARPA".to_owned() } else { format!("n{step}.deep") });
    let table = (0..rewrites).flat_map(|at| dname_record(&step(at), &step(at + 1))).collect();
    (table, vec![0; 16])
}
