//! Data in both layouts and values, good and damaged.

use super::names::{self, Name};
use super::Random;
use crate::layout::Layout;

/// Prefix lengths at the edges of octets and of the range.
const EDGES: [u8; 22] = [0, 1, 7, 8, 9, 15, 16, 32, 47, 48, 63, 64, 65, 71, 72, 112, 119, 120, 121, 126, 127, 128];

/// A prefix length, 0 to 128.
pub fn length(random: &mut Random) -> u8 {
    match random.below(4) {
        0 => 0,
        1 => random.pick(&EDGES),
        _ => random.between(0, 128) as u8,
    }
}

/// The bits of an address that stand after a prefix of this length.
pub fn suffix(length: u8) -> u128 {
    u128::MAX.checked_shr(length as u32).unwrap_or(0)
}

/// Good data; padding and bit labels are as they come. In data of the 1998 draft the first bits of the address ought to be
/// zero: once in four times they are, once in four all of them are set, and else they are as they come.
pub fn good_data(random: &mut Random, layout: Layout, name: &mut Name, data: &mut Vec<u8>) {
    let length = length(random);
    data.clear();
    for _ in 1..layout.before_name(length) {
        let octet = random.octet();
        data.push(if random.once_in(4) { 0 } else { octet });
    }
    if let (Layout::Draft, Some(address)) = (layout, data.first_chunk_mut()) {
        let bits = u128::from_be_bytes(*address);
        let bits = [bits, bits, bits & suffix(length), bits | !suffix(length)][random.below(4)];
        *address = bits.to_be_bytes();
    }
    data.insert(layout.prefix(), length);
    if length > 0 {
        names::good(random, name);
        data.extend_from_slice(&name.octets);
    }
}

/// What A6 data with a whole suffix are in the 1998 draft's layout: the same suffix and the same spelling of the name. Each
/// octet before the suffix is `before`.
pub fn relaid(data: &[u8], before: u8) -> Vec<u8> {
    let (suffix, name) = data[1..].split_at(Layout::A6.before_name(data[0]) - 1);
    [&[before; 16][suffix.len()..], suffix, &data[..1], name].concat()
}

/// Data, good or damaged.
pub fn any_data(random: &mut Random, layout: Layout, name: &mut Name, data: &mut Vec<u8>) {
    good_data(random, layout, name, data);
    let somewhere = random.below(data.len());
    let prefix = layout.prefix();
    match random.below(13) {
        0..=2 => {}
        // The prefix length over 128, or another one.
        3 => data[prefix] = random.between(129, 255) as u8,
        4 => data[prefix] = length(random),
        // Cut short, or octets left over.
        5 => data.truncate(somewhere),
        6 => data.truncate(random.below(20).min(somewhere)),
        7 => data.extend((0..random.between(1, 3)).map(|_| 0)),
        // The name damaged.
        8..=10 => {
            names::any(random, name);
            data.truncate(layout.before_name(data[prefix]));
            data.extend_from_slice(&name.octets);
        }
        // Data in the other layout, handed in by mistake.
        11 => good_data(random, layout.other(), name, data),
        _ => data[somewhere] = random.octet(),
    }
}

/// A value that reading can give, in 273 octets.
pub fn good_value(random: &mut Random, name: &mut Name, value: &mut [u8; 273]) {
    let length = length(random);
    value.fill(0);
    value[0] = length;
    let mut address = (random.number() as u128) << 64 | random.number() as u128;
    if random.once_in(4) {
        address = random.pick(&[0, 1, u128::MAX]);
    }
    value[1..17].copy_from_slice(&(address & suffix(length)).to_be_bytes());
    if length > 0 {
        names::standard(random, name);
        put_name(value, &name.octets);
    }
}

/// Puts a name of up to 255 octets in a value, zeros after it.
fn put_name(value: &mut [u8; 273], name: &[u8]) {
    value[17..].fill(0);
    value[17] = name.len() as u8;
    value[18..18 + name.len()].copy_from_slice(name);
}

/// Some octets of a damaged name that fit.
fn put_any_name(random: &mut Random, name: &mut Name, value: &mut [u8; 273]) {
    names::any(random, name);
    put_name(value, &name.octets[..name.octets.len().min(255)]);
}

/// A value good or damaged in one of the ways that 01 lists.
pub fn any_value(random: &mut Random, name: &mut Name, value: &mut [u8; 273]) {
    good_value(random, name, value);
    let length = value[0];
    let named = value[17] as usize;
    match random.below(16) {
        0..=3 => {}
        // The prefix length over 128, or another one than the address and the name go with.
        4 => value[0] = random.between(129, 255) as u8,
        5 => value[0] = random.pick(&EDGES),
        // A set bit among the first L.
        6 | 7 if length > 0 => {
            let bit = if random.once_in(2) { length as usize - 1 } else { random.below(length as usize) };
            value[1 + bit / 8] |= 128 >> (bit % 8);
        }
        // The name missing, with and without its octets; an unwanted one.
        8 if length > 0 => value[17] = 0,
        8 => put_any_name(random, name, value),
        9 if length > 0 => value[17..].fill(0),
        9 => value[17] = random.octet(),
        // Another length than the name's.
        10 => value[17] = value[17].wrapping_add(random.pick(&[1, 255])),
        11 => value[17] = random.octet(),
        // Octets set after the name.
        12 if named < 255 => {
            let after = random.pick(&[18 + named, 272, half_way(named)]);
            value[after] = random.between(1, 255) as u8;
        }
        // A name malformed, or not in standard form.
        13 | 14 if length > 0 => put_any_name(random, name, value),
        _ => value[random.below(273)] = random.octet(),
    }
}

/// A place half way between the name and the end of the value.
fn half_way(named: usize) -> usize {
    18 + named + (254 - named) / 2
}
