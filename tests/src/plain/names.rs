//! Names (01, Names; T-03) as lists of units.

use super::{answer, demand, Answer};

/// One unit of a name, spelt as it is. Names list theirs lowest first.
#[derive(Clone, Debug, PartialEq)]
pub enum Unit {
    Label(Vec<u8>),
    Bit(bool),
}

/// An octet of an ordinary label without its case: A to Z are a to z, every other octet is itself (T-03).
fn small(octet: u8) -> u8 {
    match octet {
        b'A'..=b'Z' => octet - b'A' + b'a',
        _ => octet,
    }
}

/// Two units are the same: equal bits, or ordinary labels with equal octets but for the case of letters.
fn same_unit(one: &Unit, other: &Unit) -> bool {
    match (one, other) {
        (Unit::Bit(one), Unit::Bit(other)) => one == other,
        (Unit::Label(one), Unit::Label(other)) => {
            one.len() == other.len() && one.iter().zip(other).all(|(one, other)| small(*one) == small(*other))
        }
        _ => false,
    }
}

/// Two names are the same, whatever their spelling: unit for unit.
pub fn same(one: &[Unit], other: &[Unit]) -> bool {
    one.len() == other.len() && one.iter().zip(other).all(|(one, other)| same_unit(one, other))
}

/// The units of a name that stand below an owner; None where the name does not end with the units of the owner.
pub fn below<'a>(name: &'a [Unit], owner: &[Unit]) -> Option<&'a [Unit]> {
    let (below, rest) = name.split_at_checked(name.len().checked_sub(owner.len())?)?;
    same(rest, owner).then_some(below)
}

/// Why octets are no name, in the order in which a label is judged.
#[derive(Clone, Copy, Debug, PartialEq)]
pub enum Why {
    FirstOctetMissing,
    BadFirstOctet,
    BeyondTheEnd,
    TooLong,
    UnusedBits,
    LongRun,
}

impl Why {
    /// 01's number for it in A6 data.
    pub fn number(self) -> u32 {
        match self {
            Why::FirstOctetMissing | Why::BeyondTheEnd => 11,
            Why::BadFirstOctet | Why::TooLong | Why::UnusedBits | Why::LongRun => 12,
        }
    }
}

/// The units of the name that `data` begins with, and how many octets it takes.
pub fn read(data: &[u8]) -> Result<(Vec<Unit>, usize), Why> {
    let mut units: Vec<Unit> = Vec::new();
    let mut at = 0;
    loop {
        let rest = &data[at..];
        if rest.is_empty() {
            return Err(Why::FirstOctetMissing);
        }
        let bits = match rest[0] {
            65 if rest.len() < 2 => return Err(Why::BeyondTheEnd),
            65 if rest[1] == 0 => 256,
            65 => rest[1] as usize,
            _ => 0,
        };
        let size = match rest[0] {
            first @ 0..=63 => 1 + first as usize,
            65 => 2 + bits / 8 + (bits % 8 != 0) as usize,
            _ => return Err(Why::BadFirstOctet),
        };
        if size > rest.len() {
            return Err(Why::BeyondTheEnd);
        }
        at += size;
        if at > 255 {
            return Err(Why::TooLong);
        }
        let label = &rest[..size];
        match label[0] {
            0 => return Ok((units, at)),
            65 => {
                let all: Vec<bool> =
                    label[2..].iter().flat_map(|octet| (0..8).map(move |bit| octet >> (7 - bit) & 1 == 1)).collect();
                if all[bits..].contains(&true) {
                    return Err(Why::UnusedBits);
                }
                units.extend(all[..bits].iter().rev().map(|bit| Unit::Bit(*bit)));
                let run = units.iter().rev().take_while(|unit| matches!(unit, Unit::Bit(_))).count();
                if run > 256 {
                    return Err(Why::LongRun);
                }
            }
            _ => units.push(Unit::Label(label[1..].to_vec())),
        }
    }
}

/// The longest run of bits in a list of units.
pub fn longest_run(units: &[Unit]) -> usize {
    units.split(|unit| matches!(unit, Unit::Label(_))).map(|run| run.len()).max().unwrap_or(0)
}

/// The octets of a list of units in standard form: one bit label a run. No run is longer than 256.
pub fn encode(units: &[Unit]) -> Vec<u8> {
    let mut octets = Vec::new();
    let mut run: Vec<bool> = Vec::new();
    for unit in units {
        match unit {
            Unit::Bit(bit) => run.push(*bit),
            Unit::Label(label) => {
                end_run(&mut run, &mut octets);
                octets.push(label.len() as u8);
                octets.extend(label);
            }
        }
    }
    end_run(&mut run, &mut octets);
    octets.push(0);
    octets
}

/// Writes a run of bits, lowest first, as one bit label, and empties it.
fn end_run(run: &mut Vec<bool>, octets: &mut Vec<u8>) {
    if run.is_empty() {
        return;
    }
    octets.push(65);
    octets.push((run.len() % 256) as u8);
    run.reverse();
    for eight in run.chunks(8) {
        octets.push((0..8).map(|bit| (eight.get(bit) == Some(&true)) as u8 * (128 >> bit)).sum());
    }
    run.clear();
}

/// The units of a name that fills its slice.
pub fn whole(name: &[u8]) -> Option<Vec<Unit>> {
    match read(name) {
        Ok((units, used)) if used == name.len() => Some(units),
        _ => None,
    }
}

/// The answer of `a6plan_standard` for an output and figures of these lengths.
pub fn standard(name: &[u8], out: usize, figures: usize) -> Answer {
    let given = || {
        let units = whole(name).ok_or(4_u32)?;
        demand(5, out == 255 && figures == 2)?;
        let octets = encode(&units);
        let length = octets.len() as u32;
        Ok((octets, [length, 0]))
    };
    answer(given(), out, figures)
}
