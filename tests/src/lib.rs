//! Tests of the A6 plan library from outside, through its C interface.
//!
//! The rules are those of the paper "The A6 plan library and its rules", called 01 in the comments, and of the requests
//! that changed them, called by their numbers: T-01 brought TTLs, T-02 the layout of the 1998 draft, T-03 letters of
//! either case, T-04 the place of a table's fault, T-05 the picture of a join, T-06 lines of a zone. Three answers stand
//! side by side: `ffi` calls the library; `reference` is an independent Rust version written for speed, which `bench`
//! measures the library against; `plain` spells the rules out slowly (lists of units, one bit at a time) and judges the
//! reference. `layout` has the two layouts of data with all three, and `lines` the lines; `calls` has the calls that take a
//! table, a record or a line, of the first two. `soak` makes random calls of all functions. `pages` makes the pages of
//! docs/reference from the tree.

pub mod bench;
pub mod calls;
pub mod ffi;
pub mod generate;
pub mod layout;
pub mod lent;
pub mod lines;
pub mod met;
pub mod pages;
pub mod plain;
pub mod programs;
pub mod reference;
pub mod soak;
pub mod text;
pub mod tree;
pub mod vectors;
