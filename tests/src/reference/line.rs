//! Zone lines (T-06): one A6 record read from a line and written as one.

use super::names::{name_in, SLOT};
use super::plan::{self, FIRST, LONGEST, RECORD};
use super::text::{Reader, Writer};

/// Figures of a call.
const FIGURES: usize = 2;
/// The longest prefix.
const LENGTH: u64 = 128;
/// The TTL of a line that has none.
const USUAL: u64 = 300;

/// What a line says.
pub struct Fields {
    owner: [u8; SLOT],
    ttl: u32,
    length: u8,
    address: u128,
    target: [u8; SLOT],
}

/// The fields of a line, from left to right; None where it is not of the form.
#[inline(always)]
fn fields(text: &mut Reader) -> Option<Fields> {
    let (mut owner, mut target) = ([0; SLOT], [0; SLOT]);
    text.name(&mut owner)?;
    text.blanks()?;
    let mut ttl = USUAL;
    if !text.is_at(b"A6") {
        ttl = text.decimal_to(LONGEST as u64)?;
        text.blanks()?;
    }
    text.word(b"A6")?;
    text.blanks()?;
    let length = text.decimal_to(LENGTH)?;
    text.blanks()?;
    let mut address = 0;
    if length != LENGTH || !text.is_last_field() {
        address = text.address()?;
        if length > 0 {
            text.blanks()?;
        }
    }
    if length > 0 {
        text.name(&mut target)?;
    }
    text.end()?;
    let address = address & !FIRST[length.min(LENGTH) as usize];
    Some(Fields { owner, ttl: ttl as u32, length: length as u8, address, target })
}

/// The fields of a line, or its number: 20 where it is not of the form, 21 where a number is out of range, 22 where a
/// label, run or name is too long.
#[inline(always)]
fn read(line: &[u8]) -> Result<Fields, u32> {
    let mut text = Reader::new(line).ok_or(20_u32)?;
    let fields = fields(&mut text).ok_or(20_u32)?;
    match text {
        Reader { beyond: true, .. } => Err(21),
        Reader { long: true, .. } => Err(22),
        _ => Ok(fields),
    }
}

/// The answer of `a6plan_read_line`: 5 for figures not of two, then 20 to 22 for the line, 23 for an output of less than a
/// record, then 0 with the record, zeros after it, and 1 and 0.
#[inline(never)]
pub fn read_line(line: &[u8], out: &mut [u8], figures: &mut [u32]) -> u32 {
    out.fill(0);
    figures.fill(0);
    if figures.len() != FIGURES {
        return 5;
    }
    let fields = match read(line) {
        Ok(fields) => fields,
        Err(number) => return number,
    };
    if out.len() < RECORD {
        return 23;
    }
    let Fields { owner, ttl, length, address, target } = &fields;
    plan::put_a6(out, *length, *address, owner, target, *ttl);
    figures[0] = 1;
    0
}

/// Writes the line of an A6 record in order.
#[inline(always)]
fn write(record: &[u8], text: &mut Writer) {
    let length = plan::length_of(record);
    text.name(name_in(plan::owner_of(record)));
    text.put(b' ');
    text.decimal(plan::ttl_of(record));
    text.word(b" A6 ");
    text.decimal(length as u32);
    text.put(b' ');
    text.address(plan::address_of(record));
    if length > 0 {
        text.put(b' ');
        text.name(name_in(plan::target_of(record)));
    }
    text.put(b'\n');
}

/// The answer of `a6plan_write_line`: 5 for figures not of two, then 2 for anything but an A6 record in order, 23 where the
/// line is longer than the output, then 0 with the line, zeros after it, and its octets and 0.
#[inline(never)]
pub fn write_line(record: &[u8], out: &mut [u8], figures: &mut [u32]) -> u32 {
    figures.fill(0);
    let number = match figures.len() {
        FIGURES if plan::is_a6(record) => 0,
        FIGURES => 2,
        _ => 5,
    };
    if number != 0 {
        out.fill(0);
        return number;
    }
    let mut text = Writer::new(out);
    write(record, &mut text);
    let size = text.size;
    if size > out.len() {
        out.fill(0);
        return 23;
    }
    out[size..].fill(0);
    figures[0] = size as u32;
    0
}
