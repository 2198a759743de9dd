//! A6 data (01, A6 data): the reader and the writer, and what the 1998 draft's layout shares with them.
//!
//! A value is 273 octets: prefix length, sixteen address octets, name length, 255 name octets.

use super::names;

/// Octets of a value.
pub const VALUE: usize = 273;
/// Where the name length stands in a value, and the name's octets.
pub const LENGTH: usize = 17;
const NAME: usize = 18;
/// The longest prefix.
pub const LONGEST: u8 = 128;

/// Octets of suffix after this prefix length.
#[inline(always)]
fn suffix_of(length: u8) -> usize {
    16 - length as usize / 8
}

/// Puts the name that data end with in the value; there is one exactly when the prefix length is not 0. Gives 0, or else
/// 11, 12 or 13 and leaves the value as it is.
#[inline(always)]
pub fn read_name(length: u8, name: &[u8], value: &mut [u8]) -> u32 {
    if length == 0 {
        return if name.is_empty() { 0 } else { 13 };
    }
    let scan = names::scan(name);
    if scan.number != 0 {
        return scan.number;
    }
    if scan.used < name.len() {
        return 13;
    }
    value[LENGTH] = names::put_standard(name, scan.standard, &mut value[NAME..]) as u8;
    0
}

/// The answer of `a6plan_read`: 5 for a value not of 273 octets, then what is wrong with the data from left to right,
/// then 0 with the value.
#[inline(never)]
pub fn read(data: &[u8], value: &mut [u8]) -> u32 {
    value.fill(0);
    if value.len() != VALUE {
        return 5;
    }
    let Some(&length) = data.first() else { return 11 };
    if length > LONGEST {
        return 10;
    }
    let suffix = suffix_of(length);
    if data.len() < 1 + suffix {
        return 11;
    }
    let (suffix, name) = data[1..].split_at(suffix);
    let number = read_name(length, name, value);
    if number != 0 {
        return number;
    }
    value[0] = length;
    value[LENGTH - suffix.len()..LENGTH].copy_from_slice(suffix);
    if length < LONGEST {
        value[LENGTH - suffix.len()] &= 0xff >> (length % 8);
    }
    0
}

/// The answer of a writer: 5 for a value not of 273 octets or figures not of two, 10 for a prefix length over 128, 12 for
/// another value that no reading gives, 7 where the output is short, then 0 with the data, zeros after them, and the
/// octets written and 0. `before` gives the octets before the name at a prefix length, and `put` puts them there.
#[inline(always)]
pub fn write_as(
    value: &[u8],
    out: &mut [u8],
    figures: &mut [u32],
    before: impl Fn(u8) -> usize,
    put: impl Fn(&[u8], &mut [u8]),
) -> u32 {
    out.fill(0);
    figures.fill(0);
    if value.len() != VALUE || figures.len() != 2 {
        return 5;
    }
    let length = value[0];
    if length > LONGEST {
        return 10;
    }
    let address = u128::from_be_bytes(value[1..LENGTH].try_into().expect("sixteen octets"));
    if length > 0 && address >> (LONGEST - length) != 0 {
        return 12;
    }
    let slot = value[LENGTH..].first_chunk().expect("a slot");
    let name = if length > 0 { names::in_slot(slot) } else { names::is_blank(slot).then_some(&[][..]) };
    let Some(name) = name else { return 12 };
    let before = before(length);
    let size = before + name.len();
    if out.len() < size {
        return 7;
    }
    put(value, &mut out[..before]);
    out[before..size].copy_from_slice(name);
    figures[0] = size as u32;
    0
}

/// The answer of `a6plan_write`: before the name stand the prefix length and the suffix.
#[inline(never)]
pub fn write(value: &[u8], out: &mut [u8], figures: &mut [u32]) -> u32 {
    let before = |length: u8| 1 + suffix_of(length);
    write_as(value, out, figures, before, |value, out| {
        let suffix = out.len() - 1;
        out[0] = value[0];
        out[1..].copy_from_slice(&value[LENGTH - suffix..LENGTH]);
    })
}
