//! The plan table (01, The plan table; T-01, T-03, T-04), field by field and by pairs.

use super::names::{self, Unit};

/// The fields of a record in the order in which they are judged, numbered from 0 (T-04).
#[derive(Clone, Copy, Debug, PartialEq)]
pub enum Field {
    Type,
    Length,
    Zero,
    Address,
    Owner,
    Target,
    Ttl,
}

impl Field {
    pub const ALL: [Field; 7] =
        [Field::Type, Field::Length, Field::Zero, Field::Address, Field::Owner, Field::Target, Field::Ttl];

    /// The field breaks the layout, whatever the others do. For those that go by type and length, a type that is neither
    /// counts as A6's, and a length over 128 as 128.
    fn is_broken(self, record: &[u8]) -> bool {
        let dname = record[..2] == [0, 39];
        let length = record[2].min(128) as usize;
        match self {
            Field::Type => record[..2] != [0, 38] && !dname,
            Field::Length => record[2] > if dname { 0 } else { 128 },
            Field::Zero => record[3] != 0,
            Field::Address => {
                let zeros = if dname { 128 } else { length };
                (0..zeros).any(|bit| record[4 + bit / 8] & 128 >> (bit % 8) != 0)
            }
            Field::Owner => name_in(owner_slot(record)).is_none(),
            Field::Target if !dname && length == 0 => target_slot(record) != [0; 256],
            Field::Target => name_in(target_slot(record)).is_none(),
            Field::Ttl => ttl(record) > 2_147_483_647,
        }
    }
}

/// Octets of a record.
pub const RECORD: usize = 536;

/// The owner slot of a record.
pub fn owner_slot(record: &[u8]) -> &[u8] {
    &record[20..276]
}

/// The target slot of a record.
pub fn target_slot(record: &[u8]) -> &[u8] {
    &record[276..RECORD - 4]
}

/// The TTL of a record (T-01): its last four octets, the high one first.
pub fn ttl(record: &[u8]) -> u32 {
    record[RECORD - 4..].iter().fold(0, |number, octet| number * 256 + *octet as u32)
}

/// The units of the name in a slot: a name in standard form that fills its length, zeros after it.
pub fn name_in(slot: &[u8]) -> Option<Vec<Unit>> {
    let length = slot[0] as usize;
    let units = names::whole(&slot[1..1 + length])?;
    let mut standard = names::encode(&units);
    standard.resize(255, 0);
    (standard == slot[1..]).then_some(units)
}

/// The fields of a record that break the layout.
pub fn faults(record: &[u8]) -> impl Iterator<Item = Field> + '_ {
    Field::ALL.into_iter().filter(|field| field.is_broken(record))
}

/// The first field of a record that breaks the layout.
pub fn fault(record: &[u8]) -> Option<Field> {
    faults(record).next()
}

/// The place of a table's fault: the index of the record and the field, after 2 and 3; else zeros.
pub type Place = [u32; 2];

/// What a table earns whose first fault is this field of this record.
pub fn broken(index: usize, field: Field) -> (u32, Place) {
    (2, [index as u32, field as u32])
}

/// What a table earns whose first DNAME with the owner of an earlier one stands here.
pub fn repeated(index: usize) -> (u32, Place) {
    (3, [index as u32, Field::Owner as u32])
}

/// The answer of `a6plan_check`: its number and the place.
pub fn check(table: &[u8]) -> (u32, Place) {
    if !table.len().is_multiple_of(RECORD) || table.len() / RECORD > 1024 {
        return (1, [0, 0]);
    }
    for (index, record) in table.chunks(RECORD).enumerate() {
        if let Some(field) = fault(record) {
            return broken(index, field);
        }
    }
    let mut earlier: Vec<Vec<Unit>> = Vec::new();
    for (index, record) in table.chunks(RECORD).enumerate().filter(|(_, record)| record[1] == 39) {
        let owner = name_in(owner_slot(record)).expect("an owner");
        if earlier.iter().any(|other| names::same(other, &owner)) {
            return repeated(index);
        }
        earlier.push(owner);
    }
    (0, [0, 0])
}

/// Two tables that keep the layout are the same but for the spelling of their names (T-03).
pub fn same(one: &[u8], other: &[u8]) -> bool {
    let same_names = |one: &[u8], other: &[u8]| match (name_in(one), name_in(other)) {
        (Some(one), Some(other)) => names::same(&one, &other),
        (one, other) => one.is_none() && other.is_none(),
    };
    let same_records = |(one, other): (&[u8], &[u8])| {
        one[..20] == other[..20]
            && same_names(owner_slot(one), owner_slot(other))
            && same_names(target_slot(one), target_slot(other))
            && ttl(one) == ttl(other)
    };
    one.len() == other.len() && one.chunks(RECORD).zip(other.chunks(RECORD)).all(same_records)
}

/// The answer of `a6plan_owner` for figures of this length.
pub fn owner(table: &[u8], index: usize, figures: usize) -> (u32, Vec<u32>) {
    if figures != 2 {
        return (5, vec![0; figures]);
    }
    if check(table).0 != 0 || index >= table.len() / RECORD {
        return (0, vec![0, 0]);
    }
    let offset = index * RECORD + 21;
    (0, vec![offset as u32, table[offset - 1] as u32])
}
