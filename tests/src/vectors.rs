//! The vectors in data/: tables of tab-separated columns under a header of lines that begin with `#`.

pub const BITLABEL_MERGE: &str = include_str!("../data/bitlabel_merge.tsv");
pub const BITLABEL_NAMES: &str = include_str!("../data/bitlabel_names.tsv");
pub const A6_WIRE_READ: &str = include_str!("../data/a6_wire_read.tsv");
pub const A6_TEXT_WIRE: &str = include_str!("../data/a6_text_wire.tsv");
pub const BITLABEL_TEXT: &str = include_str!("../data/bitlabel_text.tsv");
pub const IP6_READ: &str = include_str!("../data/ip6_read.tsv");
pub const RFC5952: &str = include_str!("../data/rfc5952.tsv");
pub const DNAME_REWRITE: &str = include_str!("../data/dname_rewrite.tsv");
pub const DNAME_BITS: &str = include_str!("../data/dname_bits.tsv");

/// The rows below the header, each as its columns.
pub fn rows(file: &str) -> Vec<Vec<&str>> {
    file.lines().filter(|line| !line.starts_with('#')).map(|line| line.split('\t').collect()).collect()
}

/// The octets of a column in hexadecimal; a dash is no octets.
pub fn octets(column: &str) -> Vec<u8> {
    if column == "-" {
        return Vec::new();
    }
    assert!(column.len().is_multiple_of(2), "an odd number of digits: {column}");
    let digit = |at: usize| u8::from_str_radix(&column[at..at + 2], 16).expect("two hexadecimal digits");
    (0..column.len()).step_by(2).map(digit).collect()
}
