//! Calls that read and write lines (T-06), with all that they leave judged. Texts are lines without their octet 10.

use crate::generate::lines::LINE;
use crate::lent::Sides;
use crate::plain::line as plain;
use crate::reference::plan::RECORD;

/// The most octets that are lent.
pub const ROOM: usize = 2 * LINE;

pub struct Lines(pub Sides);

impl Default for Lines {
    fn default() -> Lines {
        Lines(Sides::new(ROOM))
    }
}

impl Lines {
    pub fn new() -> Lines {
        Lines::default()
    }

    /// The library's number for a line; all that it left is the reference's.
    pub fn read(&mut self, line: &[u8]) -> u32 {
        self.0.read_line(line, [RECORD, 2])
    }

    /// The same with an output of this length; all that the library left is what the plain rules say, too.
    pub fn read_into(&mut self, line: &[u8], out: usize) -> u32 {
        let number = self.0.read_line(line, [out, 2]);
        assert_eq!(self.0.answer(number), plain::read_answer(line, out, 2), "\"{}\"", line.escape_ascii());
        number
    }

    /// As `read`; all that the library left is what the plain rules say, too.
    pub fn read_plainly(&mut self, line: &[u8]) -> u32 {
        self.read_into(line, RECORD)
    }

    /// The number of a text.
    pub fn number(&mut self, text: &str) -> u32 {
        self.read_plainly(format!("{text}\n").as_bytes())
    }

    /// Each text earns this number.
    pub fn earn<'a>(&mut self, number: u32, texts: impl IntoIterator<Item = &'a str>) {
        for text in texts {
            assert_eq!(self.number(text), number, "{text:?}");
        }
    }

    /// The record that the library read.
    pub fn shown(&self) -> &[u8] {
        assert_eq!(self.0.counted(), [1, 0]);
        self.0.written(RECORD)
    }

    /// The record of a good text.
    pub fn record(&mut self, text: &str) -> Vec<u8> {
        assert_eq!(self.number(text), 0, "{text:?}");
        self.shown().to_vec()
    }

    /// The library's number for a record and an output of this length; all that it left is the reference's and what the
    /// plain rules say.
    pub fn write(&mut self, record: &[u8], out: usize) -> u32 {
        let number = self.0.write_line(record, [out, 2]);
        assert_eq!(self.0.answer(number), plain::write_answer(record, out, 2), "{record:02x?}");
        number
    }

    /// The line that the library wrote.
    pub fn written(&self) -> &[u8] {
        let [size, zero] = self.0.counted();
        assert_eq!(zero, 0);
        self.0.written(size as usize)
    }

    /// The text of a record in order.
    pub fn text(&mut self, record: &[u8]) -> String {
        assert_eq!(self.write(record, LINE), 0, "{record:02x?}");
        let line = String::from_utf8(self.written().to_vec()).expect("text");
        line.strip_suffix('\n').expect("octet 10").to_owned()
    }

    /// The text is read, and what it says is written so.
    pub fn assert_written(&mut self, text: &str, written: &str) {
        let record = self.record(text);
        assert_eq!(self.text(&record), written, "{text:?}");
    }

    /// The record is written so, and that is read as the record again.
    pub fn assert_shown(&mut self, record: &[u8], text: &str) {
        assert_eq!(self.text(record), text);
        assert!(self.record(text) == record, "{text:?}");
    }
}
