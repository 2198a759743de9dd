//! Memory lent to a call, with guard cells on both sides of it.

use crate::plain::plan::Place;
use crate::plain::Answer;

/// Guard cells on each side.
const GUARDS: usize = 32;

pub struct Lent<T> {
    cells: Vec<T>,
    length: usize,
    fill: T,
    guard: T,
}

impl<T: Copy + PartialEq> Lent<T> {
    /// Room for slices of up to `most` cells. `fill` is put in them before each call, `guard` beside them.
    pub fn new(most: usize, fill: T, guard: T) -> Self {
        Lent { cells: vec![guard; most + 2 * GUARDS], length: 0, fill, guard }
    }

    /// A slice of `length` cells, all of them set to the filling.
    pub fn lend(&mut self, length: usize) -> &mut [T] {
        self.length = length;
        self.cells[..GUARDS].fill(self.guard);
        self.cells[GUARDS..GUARDS + length].fill(self.fill);
        self.cells[GUARDS + length..2 * GUARDS + length].fill(self.guard);
        &mut self.cells[GUARDS..GUARDS + length]
    }

    /// What was last lent.
    pub fn shown(&self) -> &[T] {
        &self.cells[GUARDS..GUARDS + self.length]
    }

    /// Whether all guard cells beside what was last lent are as they were.
    pub fn unharmed(&self) -> bool {
        let (before, rest) = self.cells.split_at(GUARDS);
        let after = &rest[self.length..self.length + GUARDS];
        before.iter().chain(after).all(|cell| *cell == self.guard)
    }
}

/// The same memory lent twice, to the library and to the reference.
pub struct Pair<T> {
    library: Lent<T>,
    reference: Lent<T>,
}

impl<T: Copy + PartialEq> Pair<T> {
    pub fn library(&mut self, length: usize) -> &mut [T] {
        self.library.lend(length)
    }

    pub fn reference(&mut self, length: usize) -> &mut [T] {
        self.reference.lend(length)
    }

    /// What the library left.
    pub fn shown(&self) -> &[T] {
        self.library.shown()
    }

    /// Both sides left the same in every cell, and the library changed nothing beside it.
    pub fn agree(&self) -> bool {
        self.library.shown() == self.reference.shown() && self.library.unharmed()
    }
}

impl<T> Pair<T> {
    fn new(side: impl Fn() -> Lent<T>) -> Pair<T> {
        Pair { library: side(), reference: side() }
    }
}

/// An output, TTLs and figures, lent to the library and to the reference.
pub struct Sides {
    pub out: Pair<u8>,
    pub ttls: Pair<u32>,
    pub figures: Pair<u32>,
}

impl Sides {
    /// Outputs of up to `most` octets, up to four TTLs more than they have room for addresses, and up to six figures.
    pub fn new(most: usize) -> Sides {
        let numbers = |most: usize| Pair::new(|| Lent::new(most, 0xe7e7_e7e7, 0x9c9c_9c9c));
        Sides { out: Pair::new(|| Lent::new(most, 0xe7, 0x9c)), ttls: numbers(most / 16 + 4), figures: numbers(6) }
    }

    /// The number that the library's call gives with an output and figures of these lengths. It is the number of the
    /// reference's call; both left the same in every octet of the output and in the figures, and nothing beside them has
    /// changed. After a refusal that is zeros alone, but for the place of a table's fault after 2 and 3 (T-04).
    pub fn number(
        &mut self,
        [out, figures]: [usize; 2],
        library: impl FnOnce(&mut [u8], &mut [u32]) -> u32,
        reference: impl FnOnce(&mut [u8], &mut [u32]) -> u32,
        about: impl Fn() -> String,
    ) -> u32 {
        let library = |out: &mut [u8], _: &mut [u32], figures: &mut [u32]| library(out, figures);
        let reference = |out: &mut [u8], _: &mut [u32], figures: &mut [u32]| reference(out, figures);
        self.number_with_ttls([out, 0, figures], library, reference, about)
    }

    /// The same for calls that have TTLs, between the output and the figures.
    pub fn number_with_ttls(
        &mut self,
        [out, ttls, figures]: [usize; 3],
        library: impl FnOnce(&mut [u8], &mut [u32], &mut [u32]) -> u32,
        reference: impl FnOnce(&mut [u8], &mut [u32], &mut [u32]) -> u32,
        about: impl Fn() -> String,
    ) -> u32 {
        let number = library(self.out.library(out), self.ttls.library(ttls), self.figures.library(figures));
        let expected = reference(self.out.reference(out), self.ttls.reference(ttls), self.figures.reference(figures));
        assert_eq!(number, expected, "{}, output of {out}, {ttls} TTLs, {figures} figures", about());
        assert!(self.out.agree(), "{}: the output is not the reference's: {:02x?}", about(), self.out.shown());
        assert!(self.ttls.agree(), "{}: the TTLs are not the reference's: {:?}", about(), self.ttls.shown());
        assert!(self.figures.agree(), "{}: the figures are not the reference's: {:?}", about(), self.figures.shown());
        let places = if matches!(number, 2 | 3) { 2 } else { 0 };
        assert!(number == 0 || self.blank_before(places), "{}: a refusal leaves zeros", about());
        number
    }

    /// What the library left is zeros alone.
    pub fn blank(&self) -> bool {
        self.blank_before(0)
    }

    /// The same without the last figures, as many as `places`.
    pub fn blank_before(&self, places: usize) -> bool {
        let figures = self.figures.shown();
        let mut numbers = self.ttls.shown().iter().chain(figures.iter().rev().skip(places));
        numbers.all(|number| *number == 0) && self.out.shown().iter().all(|octet| *octet == 0)
    }

    /// The output that the library left, cut after `size` octets; the rest of it is zeros.
    pub fn written(&self, size: usize) -> &[u8] {
        let (written, rest) = self.out.shown().split_at(size);
        assert!(rest.iter().all(|octet| *octet == 0), "zeros after the result");
        written
    }

    /// The first two figures that the library left.
    pub fn counted(&self) -> [u32; 2] {
        *self.figures.shown().first_chunk().expect("two figures")
    }

    /// The place of a table's fault, which the library left in the last two figures.
    pub fn place(&self) -> Place {
        *self.figures.shown().last_chunk().expect("two figures")
    }

    /// All that the library left, with its number.
    pub fn answer(&self, number: u32) -> Answer {
        (number, self.out.shown().to_vec(), self.figures.shown().to_vec())
    }
}
