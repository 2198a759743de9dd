//! Calls of the functions that take a table, a record or a line, with the library and the reference side by side.

use crate::lent::Sides;
use crate::{ffi, reference};

/// A call in words: what it is for, and the table.
fn about(subject: String, table: &[u8]) -> String {
    format!("{subject} in a table of {} octets", table.len())
}

/// Each gives the library's number for an output, TTLs and figures of these lengths; all that it left is the reference's.
impl Sides {
    pub fn check(&mut self, table: &[u8], figures: usize) -> u32 {
        let library = |_: &mut [u8], figures: &mut [u32]| ffi::check(table, figures);
        let reference = |_: &mut [u8], figures: &mut [u32]| reference::plan::check(table, figures);
        self.number([0, figures], library, reference, || about("check".into(), table))
    }

    pub fn owner(&mut self, table: &[u8], index: usize, figures: usize) -> u32 {
        let library = |_: &mut [u8], figures: &mut [u32]| ffi::owner(table, index, figures);
        let reference = |_: &mut [u8], figures: &mut [u32]| reference::plan::owner(table, index, figures);
        self.number([0, figures], library, reference, || about(format!("owner {index}"), table))
    }

    /// The lengths are those of the output, the TTLs and the figures.
    pub fn lookup(&mut self, table: &[u8], name: &[u8], limit: u32, lengths: [usize; 3]) -> u32 {
        let library =
            |out: &mut [u8], ttls: &mut [u32], figures: &mut [u32]| ffi::lookup(table, name, limit, out, ttls, figures);
        let reference = |out: &mut [u8], ttls: &mut [u32], figures: &mut [u32]| {
            reference::forward::lookup(table, name, limit, out, ttls, figures)
        };
        let subject = || format!("lookup of {name:02x?}, limit {limit},");
        self.number_with_ttls(lengths, library, reference, || about(subject(), table))
    }

    /// The lengths are those of the output and the figures.
    pub fn reverse(&mut self, table: &[u8], address: &[u8], limit: u8, lengths: [usize; 2]) -> u32 {
        let library = |out: &mut [u8], figures: &mut [u32]| ffi::reverse(table, address, limit, out, figures);
        let reference =
            |out: &mut [u8], figures: &mut [u32]| reference::reverse::lookup(table, address, limit, out, figures);
        let subject = || format!("reverse of {address:02x?}, limit {limit},");
        self.number(lengths, library, reference, || about(subject(), table))
    }

    /// The lengths are those of the output and the figures.
    pub fn collapse(&mut self, table: &[u8], name: &[u8], lengths: [usize; 2]) -> u32 {
        let library = |out: &mut [u8], figures: &mut [u32]| ffi::collapse(table, name, out, figures);
        let reference = |out: &mut [u8], figures: &mut [u32]| reference::collapse::collapse(table, name, out, figures);
        self.number(lengths, library, reference, || about(format!("collapse of {name:02x?}"), table))
    }

    /// The lengths are those of the output and the figures.
    pub fn write_line(&mut self, record: &[u8], lengths: [usize; 2]) -> u32 {
        let library = |out: &mut [u8], figures: &mut [u32]| ffi::write_line(record, out, figures);
        let reference = |out: &mut [u8], figures: &mut [u32]| reference::line::write_line(record, out, figures);
        let number = self.number(lengths, library, reference, || format!("line of {record:02x?}"));
        assert!(number == 0 || self.blank(), "a refusal leaves zeros: {number} for {record:02x?}");
        number
    }

    /// The lengths are those of the output and the figures.
    pub fn read_line(&mut self, line: &[u8], lengths: [usize; 2]) -> u32 {
        let library = |out: &mut [u8], figures: &mut [u32]| ffi::read_line(line, out, figures);
        let reference = |out: &mut [u8], figures: &mut [u32]| reference::line::read_line(line, out, figures);
        self.number(lengths, library, reference, || format!("line \"{}\"", line.escape_ascii()))
    }
}
