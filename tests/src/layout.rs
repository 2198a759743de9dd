//! The layouts that the data of a value have, and calls in one of them with all that they leave judged.

use crate::plain::a6::{read_answer, write_answer, Value};
use crate::reference::a6::VALUE;
use crate::{ffi, lent, plain, reference};
use std::fmt;

#[derive(Clone, Copy, Debug, PartialEq)]
pub enum Layout {
    /// A6 data: prefix length, suffix, name (01, A6 data).
    A6,
    /// Data of the 1998 draft: address, prefix length, name (T-02).
    Draft,
}

pub type Read = fn(&[u8], &mut [u8]) -> u32;
pub type Write = fn(&[u8], &mut [u8], &mut [u32]) -> u32;

impl fmt::Display for Layout {
    fn fmt(&self, to: &mut fmt::Formatter) -> fmt::Result {
        write!(to, "{}", if *self == Layout::A6 { "A6" } else { "1998" })
    }
}

impl Layout {
    pub fn other(self) -> Layout {
        match self {
            Layout::A6 => Layout::Draft,
            Layout::Draft => Layout::A6,
        }
    }

    /// Where the prefix length stands in the data.
    pub fn prefix(self) -> usize {
        match self {
            Layout::A6 => 0,
            Layout::Draft => 16,
        }
    }

    /// Octets before the name in data with this prefix length; one over 128 counts as 128.
    pub fn before_name(self, length: u8) -> usize {
        match self {
            Layout::A6 => 17 - length.min(128) as usize / 8,
            Layout::Draft => 17,
        }
    }

    /// Octets of the data of a value, by its prefix length and the length of its name.
    pub fn size(self, value: &[u8; VALUE]) -> usize {
        self.before_name(value[0]) + value[17] as usize
    }

    /// The reader of the library and that of the reference.
    pub fn readers(self) -> [Read; 2] {
        match self {
            Layout::A6 => [ffi::read, reference::a6::read],
            Layout::Draft => [ffi::read_1998, reference::draft::read],
        }
    }

    /// The writer of the library and that of the reference.
    pub fn writers(self) -> [Write; 2] {
        match self {
            Layout::A6 => [ffi::write, reference::a6::write],
            Layout::Draft => [ffi::write_1998, reference::draft::write],
        }
    }

    /// What data hold by the plain rules.
    fn plain_value(self, data: &[u8]) -> Result<Value, u32> {
        match self {
            Layout::A6 => plain::a6::read(data),
            Layout::Draft => plain::draft::read(data),
        }
    }

    /// The data of a value by the plain rules.
    fn plain_data(self, value: &Value) -> Vec<u8> {
        match self {
            Layout::A6 => plain::a6::data(value),
            Layout::Draft => plain::draft::data(value),
        }
    }

    /// The standard form of good data by the plain rules.
    pub fn standard(self, data: &[u8]) -> Vec<u8> {
        self.plain_data(&self.plain_value(data).expect("good data"))
    }
}

/// Memory for readings in a layout, where the value is the output, and for writings.
pub struct Sides {
    layout: Layout,
    reading: lent::Sides,
    writing: lent::Sides,
}

impl Sides {
    pub fn new(layout: Layout) -> Sides {
        Sides { layout, reading: lent::Sides::new(300), writing: lent::Sides::new(600) }
    }

    /// The library's number for reading into a value of this length; all that it left is the reference's.
    pub fn read_into(&mut self, data: &[u8], length: usize) -> u32 {
        let [library, reference] = self.layout.readers();
        let library = |value: &mut [u8], _: &mut [u32]| library(data, value);
        let reference = |value: &mut [u8], _: &mut [u32]| reference(data, value);
        self.reading.number([length, 0], library, reference, || format!("{} {data:02x?}", self.layout))
    }

    pub fn read(&mut self, data: &[u8]) -> u32 {
        self.read_into(data, VALUE)
    }

    /// As `read`; all that the library left is what the plain rules say, too.
    pub fn read_plainly(&mut self, data: &[u8]) -> u32 {
        let number = self.read(data);
        let expected = read_answer(|data| self.layout.plain_value(data), data, VALUE);
        assert_eq!((number, self.value().to_vec()), expected, "{} {data:02x?}", self.layout);
        number
    }

    /// The library's number for writing; all that it left is the reference's.
    pub fn write_into(&mut self, value: &[u8], out: usize, figures: usize) -> u32 {
        let [library, reference] = self.layout.writers();
        let library = |out: &mut [u8], figures: &mut [u32]| library(value, out, figures);
        let reference = |out: &mut [u8], figures: &mut [u32]| reference(value, out, figures);
        self.writing.number([out, figures], library, reference, || format!("{} {value:02x?}", self.layout))
    }

    pub fn write(&mut self, value: &[u8], out: usize) -> u32 {
        self.write_into(value, out, 2)
    }

    /// As `write`; all that the library left is what the plain rules say, too.
    pub fn write_plainly(&mut self, value: &[u8], out: usize) -> u32 {
        let number = self.write(value, out);
        let expected = write_answer(|value| self.layout.plain_data(value), value, out, 2);
        assert_eq!(self.writing.answer(number), expected, "{} {value:02x?}", self.layout);
        number
    }

    /// The value that the library left.
    pub fn value(&self) -> &[u8] {
        self.reading.out.shown()
    }

    /// The data that the library left.
    pub fn data(&self) -> &[u8] {
        let [length, zero] = self.writing.counted();
        assert_eq!(zero, 0);
        self.writing.written(length as usize)
    }

    /// The value in good data.
    pub fn value_of(&mut self, data: &[u8]) -> Vec<u8> {
        assert_eq!(self.read(data), 0, "{} {data:02x?} are accepted", self.layout);
        self.value().to_vec()
    }

    /// The data of a good value, written with room to spare.
    pub fn data_of(&mut self, value: &[u8]) -> Vec<u8> {
        assert_eq!(self.write(value, 300), 0, "{} {value:02x?} is accepted", self.layout);
        self.data().to_vec()
    }
}
