//! A6 data (01, A6 data) bit by bit, and what the 1998 draft's layout shares with them.

use super::names::{self, Unit};
use super::{answer, demand, Answer};

/// What data hold: the prefix length, 128 bits of which the first are zero, and the prefix name's units.
#[derive(Clone, Debug, PartialEq)]
pub struct Value {
    pub length: u8,
    pub address: Vec<bool>,
    pub name: Option<Vec<Unit>>,
}

pub fn bits(octets: &[u8]) -> Vec<bool> {
    octets.iter().flat_map(|octet| (0..8).map(move |bit| octet >> (7 - bit) & 1 == 1)).collect()
}

pub fn octets(bits: &[bool]) -> Vec<u8> {
    bits.chunks(8).map(|eight| eight.iter().fold(0, |octet, bit| octet << 1 | *bit as u8)).collect()
}

/// The units of the name that data end with; there is one exactly when the prefix length is not 0.
pub fn read_name(length: u8, rest: &[u8]) -> Result<Option<Vec<Unit>>, u32> {
    let (name, used) = if length == 0 {
        (None, 0)
    } else {
        let (units, used) = names::read(rest).map_err(|why| why.number())?;
        (Some(units), used)
    };
    demand(13, used == rest.len())?;
    Ok(name)
}

/// Reads left to right.
pub fn read(data: &[u8]) -> Result<Value, u32> {
    let Some((length, rest)) = data.split_first() else { return Err(11) };
    if *length > 128 {
        return Err(10);
    }
    let prefix = *length as usize;
    let suffix = 16 - prefix / 8;
    if rest.len() < suffix {
        return Err(11);
    }
    let mut address = vec![false; prefix];
    address.extend(bits(&rest[..suffix]).iter().skip(prefix % 8));
    Ok(Value { length: *length, address, name: read_name(*length, &rest[suffix..])? })
}

/// The data of a value in standard form: padding zero, bit labels merged.
pub fn data(value: &Value) -> Vec<u8> {
    let prefix = value.length as usize;
    let mut data = vec![value.length];
    data.extend(octets(&value.address[prefix / 8 * 8..]));
    data.extend(name(value));
    data
}

/// The octets of a value's name in standard form; none where it has no name.
pub fn name(value: &Value) -> Vec<u8> {
    value.name.as_ref().map_or(vec![], |units| names::encode(units))
}

/// The 273 octets of a value.
pub fn held(value: &Value) -> Vec<u8> {
    let mut held = vec![value.length];
    held.extend(octets(&value.address));
    let name = name(value);
    held.push(name.len() as u8);
    held.extend(name);
    held.resize(273, 0);
    held
}

/// The value that 273 octets hold, if they hold one that reading can give; else 10 or 12.
pub fn hold(held: &[u8]) -> Result<Value, u32> {
    if held[0] > 128 {
        return Err(10);
    }
    let name = names::whole(&held[18..18 + held[17] as usize]);
    let value = Value { length: held[0], address: bits(&held[1..17]), name };
    let clear = !value.address[..held[0] as usize].contains(&true);
    if clear && value.name.is_some() == (held[0] > 0) && self::held(&value) == held {
        Ok(value)
    } else {
        Err(12)
    }
}

/// The answer of the reader that gives what `read` does, for a value of this many octets.
pub fn read_answer(read: impl Fn(&[u8]) -> Result<Value, u32>, data: &[u8], value: usize) -> (u32, Vec<u8>) {
    let given = demand(5, value == 273).and_then(|_| read(data));
    given.map_or_else(|number| (number, vec![0; value]), |read| (0, held(&read)))
}

/// The answer of the writer that writes the octets of `data`, for an output and figures of these lengths.
pub fn write_answer(data: impl Fn(&Value) -> Vec<u8>, value: &[u8], out: usize, figures: usize) -> Answer {
    let given = || {
        demand(5, value.len() == 273 && figures == 2)?;
        let data = data(&hold(value)?);
        demand(7, data.len() <= out)?;
        let written = data.len() as u32;
        Ok((data, [written, 0]))
    };
    answer(given(), out, figures)
}
