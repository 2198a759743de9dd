//! The plan table (01, The plan table; T-03, T-04): its check, the owner part, and where the records of a name stand.

use super::names::{self, same, unusual, SLOT, USUAL};

/// Octets of a record.
pub const RECORD: usize = 536;
/// The most records in a table.
pub const MOST: usize = 1024;
/// Figures of an operation on a table: two of its own, then the index of the record at fault and its field.
pub const FIGURES: usize = 4;
/// Where the fields of a record stand.
const LENGTH: usize = 2;
const ZERO: usize = 3;
const ADDRESS: usize = 4;
const OWNER: usize = 20;
const TARGET: usize = 276;
const TTL: usize = RECORD - 4;
/// The longest TTL, in seconds.
pub const LONGEST: u32 = 2_147_483_647;
/// The types.
pub const A6: u16 = 38;
pub const DNAME: u16 = 39;

/// The slot of a record that begins at `at`.
#[inline(always)]
fn slot(record: &[u8], at: usize) -> &[u8; SLOT] {
    record[at..].first_chunk().expect("a slot")
}

#[inline(always)]
pub fn type_of(record: &[u8]) -> u16 {
    u16::from_be_bytes([record[0], record[1]])
}

#[inline(always)]
pub fn length_of(record: &[u8]) -> u8 {
    record[LENGTH]
}

#[inline(always)]
pub fn address_of(record: &[u8]) -> u128 {
    u128::from_be_bytes(record[ADDRESS..OWNER].try_into().expect("sixteen octets"))
}

#[inline(always)]
pub fn owner_of(record: &[u8]) -> &[u8; SLOT] {
    slot(record, OWNER)
}

#[inline(always)]
pub fn target_of(record: &[u8]) -> &[u8; SLOT] {
    slot(record, TARGET)
}

#[inline(always)]
pub fn ttl_of(record: &[u8]) -> u32 {
    u32::from_be_bytes(record[TTL..RECORD].try_into().expect("four octets"))
}

/// The first bits of an address set, for each number of them.
pub const FIRST: [u128; 129] = {
    let mut masks = [u128::MAX; 129];
    let mut number = 0;
    while number < 128 {
        masks[number] = !(u128::MAX >> number);
        number += 1;
    }
    masks
};

/// Writes an A6 record.
#[inline(always)]
pub fn put_a6(record: &mut [u8], length: u8, address: u128, owner: &[u8; SLOT], target: &[u8; SLOT], ttl: u32) {
    record[..2].copy_from_slice(&A6.to_be_bytes());
    record[LENGTH] = length;
    record[ZERO] = 0;
    record[ADDRESS..OWNER].copy_from_slice(&address.to_be_bytes());
    record[OWNER..TARGET].copy_from_slice(owner);
    record[TARGET..TTL].copy_from_slice(target);
    record[TTL..RECORD].copy_from_slice(&ttl.to_be_bytes());
}

/// Record `index` of a table.
#[inline(always)]
pub fn record(table: &[u8], index: usize) -> &[u8] {
    &table[index * RECORD..(index + 1) * RECORD]
}

/// The number of the owner among the fields.
const OWNER_FIELD: u32 = 4;

/// The first field of a record that breaks the layout, by its number (T-04): type 0, length 1, zero octet 2, address 3,
/// owner 4, target 5, TTL 6.
#[inline(always)]
fn broken_field(record: &[u8]) -> Option<u32> {
    let (kind, length) = (type_of(record), length_of(record));
    let (longest, zeros) = match kind {
        A6 => (128, length),
        DNAME => (0, 128),
        _ => return Some(0),
    };
    if length > longest {
        return Some(1);
    }
    if record[ZERO] != 0 {
        return Some(2);
    }
    if address_of(record) & FIRST[zeros as usize] != 0 {
        return Some(3);
    }
    if names::in_slot(owner_of(record)).is_none() {
        return Some(OWNER_FIELD);
    }
    let target = target_of(record);
    let good = if zeros == 0 { names::is_blank(target) } else { names::in_slot(target).is_some() };
    if !good {
        return Some(5);
    }
    (ttl_of(record) > LONGEST).then_some(6)
}

/// The octets are one A6 record that keeps the layout.
#[inline(always)]
pub fn is_a6(record: &[u8]) -> bool {
    record.len() == RECORD && type_of(record) == A6 && broken_field(record).is_none()
}

/// What is wrong with a table: its number, and for 2 and 3 the index of the record and its field, for 1 zeros.
pub struct Fault {
    number: u32,
    place: [u32; 2],
}

impl Fault {
    /// The number, with the place in the last two figures where there are as many as are wanted.
    pub fn refuse(&self, figures: &mut [u32], wanted: usize) -> u32 {
        if figures.len() == wanted {
            figures[wanted - 2..].copy_from_slice(&self.place);
        }
        self.number
    }
}

/// Places in a list of owners; a power of two, and twice the most records.
const PLACES: usize = 2048;
/// Odd factors, one for each eight octets of a slot.
static FACTORS: [u64; SLOT / 8] = {
    let mut factors = [0; SLOT / 8];
    let mut factor = 0x9e37_79b9_7f4a_7c15_u64;
    let mut at = 0;
    while at < factors.len() {
        factors[at] = factor | 1;
        factor = factor.wrapping_mul(0xd134_2543_de82_ef95).wrapping_add(0x2545_f491_4f6c_dd1d);
        at += 1;
    }
    factors
};

/// A number of the name in a slot, equal for all its spellings.
#[inline(always)]
fn hash(slot: &[u8; SLOT]) -> u64 {
    let part = |octets: &[u8], factors: &[u64]| {
        let mut sum = 0_u64;
        for (word, factor) in octets.chunks_exact(8).zip(factors) {
            let word = names::caseless(u64::from_le_bytes(word.try_into().expect("eight octets")));
            sum = sum.wrapping_add((word ^ word >> 32).wrapping_mul(*factor));
        }
        sum
    };
    let mut sum = part(&slot[..USUAL], &FACTORS);
    if slot[0] as usize >= USUAL {
        sum = sum.wrapping_add(part(unusual(slot), &FACTORS[USUAL / 8..]));
    }
    (sum ^ sum >> 29).wrapping_mul(0xff51_afd7_ed55_8ccd)
}

/// Owners of DNAMEs met so far, by a hash: at each place the index of a record and one, and the other bits of its
/// owner's hash; 0 where there is none.
struct Owners {
    places: [u32; PLACES],
}

impl Owners {
    fn new() -> Owners {
        Owners { places: [0; PLACES] }
    }

    /// Adds the owner of record `index`. False where another record has the same.
    #[inline(always)]
    fn add(&mut self, table: &[u8], index: usize) -> bool {
        let new = owner_of(record(table, index));
        let hash = hash(new);
        let mark = (hash as u32) << 11;
        let mut place = (hash >> 53) as usize;
        loop {
            let held = self.places[place];
            if held == 0 {
                self.places[place] = mark | (index as u32 + 1);
                return true;
            }
            let other = (held & 0x7ff).wrapping_sub(1) as usize;
            if (held ^ mark) >> 11 == 0 && same(owner_of(record(table, other)), new) {
                return false;
            }
            place = (place + 1) % PLACES;
        }
    }
}

/// The A6 records of a table by a hash of their owners: those at one place in a line, in table order.
pub struct Index {
    /// The first record in the line of each place, after all records the next one in its line. NONE ends a line.
    next: [u16; MOST + PLACES],
    /// Where the number of the next record in each line goes.
    last: [u16; PLACES],
    /// Other bits of the owners' hashes.
    marks: [u16; MOST],
}

/// No record.
const NONE: u16 = u16::MAX;
/// The end of each line while it is empty.
const EMPTY: [u16; PLACES] = {
    let mut ends = [0; PLACES];
    let mut place = 0;
    while place < PLACES {
        ends[place] = (MOST + place) as u16;
        place += 1;
    }
    ends
};

impl Index {
    #[inline(always)]
    pub fn new() -> Index {
        Index { next: [NONE; MOST + PLACES], last: EMPTY, marks: [0; MOST] }
    }

    /// Adds record `index`, an A6 record.
    #[inline(always)]
    pub fn add(&mut self, index: usize, record: &[u8]) {
        let hash = hash(owner_of(record));
        let place = (hash >> 53) as usize;
        self.next[self.last[place] as usize] = index as u16;
        self.last[place] = index as u16;
        self.marks[index] = hash as u16;
    }

    /// The records that the name in a slot owns, in table order.
    #[inline(always)]
    pub fn owned<'a>(&'a self, table: &'a [u8], name: &'a [u8; SLOT]) -> Owned<'a> {
        let hash = hash(name);
        Owned { index: self, table, name, mark: hash as u16, next: self.next[MOST + (hash >> 53) as usize] }
    }
}

impl Default for Index {
    fn default() -> Index {
        Index::new()
    }
}

/// Records with one owner, one after another.
#[derive(Clone)]
pub struct Owned<'a> {
    index: &'a Index,
    table: &'a [u8],
    name: &'a [u8; SLOT],
    mark: u16,
    next: u16,
}

impl Iterator for Owned<'_> {
    type Item = usize;

    #[inline(always)]
    fn next(&mut self) -> Option<usize> {
        while self.next != NONE {
            let at = self.next as usize;
            self.next = self.index.next[at];
            if self.index.marks[at] == self.mark && same(owner_of(record(self.table, at)), self.name) {
                return Some(at);
            }
        }
        None
    }
}

/// Whether a table is in order, with a look at each record from the first on, up to one that breaks the layout: 1 for a
/// length that is no multiple of a record or too many records, 2 for a record that breaks the layout, 3 for two DNAMEs
/// with one owner.
#[inline(always)]
pub fn check_and(table: &[u8], mut look: impl FnMut(usize, &[u8])) -> Result<(), Fault> {
    if !table.len().is_multiple_of(RECORD) || table.len() > MOST * RECORD {
        return Err(Fault { number: 1, place: [0, 0] });
    }
    let mut owners = Owners::new();
    let mut repeated = None;
    for (index, record) in table.chunks_exact(RECORD).enumerate() {
        if let Some(field) = broken_field(record) {
            return Err(Fault { number: 2, place: [index as u32, field] });
        }
        if type_of(record) == DNAME && !owners.add(table, index) {
            repeated = repeated.or(Some(index));
        }
        look(index, record);
    }
    match repeated {
        Some(index) => Err(Fault { number: 3, place: [index as u32, OWNER_FIELD] }),
        None => Ok(()),
    }
}

/// The answer of `a6plan_check`: 1 to 3 for the table, with the index of the record at fault and its field, 5 for
/// figures not of two, else 0.
#[inline(never)]
pub fn check(table: &[u8], figures: &mut [u32]) -> u32 {
    figures.fill(0);
    match check_and(table, |_, _| {}) {
        Err(fault) => fault.refuse(figures, 2),
        Ok(()) if figures.len() != 2 => 5,
        Ok(()) => 0,
    }
}

/// The answer of `a6plan_owner`: 5 for figures not of two, else 0, with offset and length of the owner's octets, or
/// 0 and 0 for a bad index or a table not in order.
#[inline(never)]
pub fn owner(table: &[u8], index: usize, figures: &mut [u32]) -> u32 {
    figures.fill(0);
    if figures.len() != 2 {
        return 5;
    }
    if check_and(table, |_, _| {}).is_ok() && index < table.len() / RECORD {
        let slot = index * RECORD + OWNER;
        figures[0] = slot as u32 + 1;
        figures[1] = table[slot] as u32;
    }
    0
}
