//! Names (01, Names; T-03): reading one left to right, its standard form, comparing two.

/// The most octets in a name.
pub const NAME: usize = 255;
/// The most bits in a run of bit labels.
pub const RUN: usize = 256;
/// The first octet of a bit label.
pub const BIT_LABEL: u8 = 65;

/// What reading a name gives.
#[derive(Clone, Copy, Debug, PartialEq)]
pub struct Scan {
    /// 0, or 11 where the octets end too soon, or 12 where the name is malformed.
    pub number: u32,
    /// Octets of the name, its zero octet included; 0 on a refusal.
    pub used: usize,
    /// No two bit labels stand side by side.
    pub standard: bool,
}

const ENDS_TOO_SOON: Scan = Scan { number: 11, used: 0, standard: false };
const MALFORMED: Scan = Scan { number: 12, used: 0, standard: false };

/// Bits in a bit label with this count octet.
#[inline(always)]
pub fn bits_of(count: u8) -> usize {
    if count == 0 {
        RUN
    } else {
        count as usize
    }
}

/// Reads the name that `data` begins with, judging each label in the order of 01's last table.
#[inline(always)]
pub fn scan(data: &[u8]) -> Scan {
    let mut at = 0;
    let mut run = 0;
    let mut standard = true;
    loop {
        let Some(&first) = data.get(at) else { return ENDS_TOO_SOON };
        if first.wrapping_sub(1) < 63 {
            at += 1 + first as usize;
            if at > data.len() {
                return ENDS_TOO_SOON;
            }
            if at > NAME {
                return MALFORMED;
            }
            run = 0;
        } else if first == BIT_LABEL {
            let Some(&count) = data.get(at + 1) else { return ENDS_TOO_SOON };
            let bits = bits_of(count);
            at += 2 + bits.div_ceil(8);
            if at > data.len() {
                return ENDS_TOO_SOON;
            }
            let unused = (1_u8 << (bits.wrapping_neg() % 8)) - 1;
            standard &= run == 0;
            run += bits;
            if at > NAME || data[at - 1] & unused != 0 || run > RUN {
                return MALFORMED;
            }
        } else if first == 0 {
            at += 1;
            if at > NAME {
                return MALFORMED;
            }
            return Scan { number: 0, used: at, standard };
        } else {
            return MALFORMED;
        }
    }
}

/// 256 bits, left-justified: the higher half first.
#[derive(Clone, Copy)]
pub struct Bits {
    high: u128,
    low: u128,
}

impl Bits {
    pub fn from(octets: &[u8]) -> Bits {
        let mut all = [0; 32];
        all[..octets.len()].copy_from_slice(octets);
        let half = |at: usize| u128::from_be_bytes(all[at..at + 16].try_into().expect("sixteen octets"));
        Bits { high: half(0), low: half(16) }
    }

    /// These bits moved `by` places away from the root, 1 to 255.
    pub fn lowered(self, by: usize) -> Bits {
        if by >= 128 {
            Bits { high: 0, low: self.high >> (by - 128) }
        } else {
            Bits { high: self.high >> by, low: self.low >> by | self.high << (128 - by) }
        }
    }

    /// These bits moved `by` places towards the root, 1 to 255; the first ones fall away.
    pub fn raised(self, by: usize) -> Bits {
        if by >= 128 {
            Bits { high: self.low << (by - 128), low: 0 }
        } else {
            Bits { high: self.high << by | self.low >> (128 - by), low: self.low << by }
        }
    }

    /// The bits that are set in either.
    pub fn or(self, other: Bits) -> Bits {
        Bits { high: self.high | other.high, low: self.low | other.low }
    }

    pub fn put(self, octets: &mut [u8]) {
        let mut all = [0; 32];
        all[..16].copy_from_slice(&self.high.to_be_bytes());
        all[16..].copy_from_slice(&self.low.to_be_bytes());
        octets.copy_from_slice(&all[..octets.len()]);
    }
}

/// Writes the standard form of `name`, a whole name that `scan` accepts, to the beginning of `out`, which has room
/// for it. Gives its length.
#[inline(always)]
pub fn put_standard(name: &[u8], standard: bool, out: &mut [u8]) -> usize {
    if standard {
        out[..name.len()].copy_from_slice(name);
        return name.len();
    }
    merge(name, out)
}

/// `put_standard` where bit labels stand side by side: in a run the label on the right is nearer to the root, so its
/// bits come first.
fn merge(name: &[u8], out: &mut [u8]) -> usize {
    let mut at = 0;
    let mut to = 0;
    loop {
        let first = name[at];
        if first == 0 {
            out[to] = 0;
            return to + 1;
        }
        if first != BIT_LABEL {
            let size = 1 + first as usize;
            out[to..to + size].copy_from_slice(&name[at..at + size]);
            at += size;
            to += size;
            continue;
        }
        let mut run = bits_of(name[at + 1]);
        let mut size = run.div_ceil(8);
        let mut merged = Bits::from(&name[at + 2..at + 2 + size]);
        at += 2 + size;
        while name[at] == BIT_LABEL {
            let bits = bits_of(name[at + 1]);
            size = bits.div_ceil(8);
            let next = Bits::from(&name[at + 2..at + 2 + size]);
            merged = next.or(merged.lowered(bits));
            run += bits;
            at += 2 + size;
        }
        size = run.div_ceil(8);
        out[to] = BIT_LABEL;
        out[to + 1] = run as u8;
        merged.put(&mut out[to + 2..to + 2 + size]);
        to += 2 + size;
    }
}

/// The bit that makes a small letter of a capital, in an octet and in the octets of words.
const CASE: u8 = 0x20;
const CASES: u64 = u64::from_ne_bytes([CASE; 8]);
const ALL_CASES: u128 = u128::from_ne_bytes([CASE; 16]);

/// Eight octets without what a letter's case changes. Other octets are changed as well: what comes of it is good for
/// hashes, which may be equal where names are not.
#[inline(always)]
pub fn caseless(word: u64) -> u64 {
    word & !CASES
}

/// Names in standard form, or the last labels of such names, are the same: both slices begin with a label and have one
/// length. Most are equal octet for octet, or differ in more than the case of a letter.
#[inline(always)]
pub fn same_labels(one: &[u8], other: &[u8]) -> bool {
    one == other || alike(one, other) && differ_in_case(one, other)
}

/// Slices of one length differ in nothing but bits that could be a letter's case.
#[inline(always)]
fn alike(one: &[u8], other: &[u8]) -> bool {
    one.iter().zip(other).fold(0, |all, (one, other)| all | (one ^ other)) & !CASE == 0
}

/// `same_labels` for names that are alike, label by label: each octet that differs is a letter inside an ordinary label.
#[cold]
fn differ_in_case(one: &[u8], other: &[u8]) -> bool {
    let mut at = 0;
    loop {
        let first = one[at];
        if first != other[at] {
            return false;
        }
        let size = match first {
            0 => return true,
            BIT_LABEL => 2 + bits_of(one[at + 1]).div_ceil(8),
            _ => 1 + first as usize,
        };
        let (one, other) = (&one[at..at + size], &other[at..at + size]);
        let same = if first == BIT_LABEL { one == other } else { one[1..].eq_ignore_ascii_case(&other[1..]) };
        if !same {
            return false;
        }
        at += size;
    }
}

/// Octets that are looked at of every slot; most names fit in them.
pub const USUAL: usize = 32;

/// The octets of a slot that may be set after the usual ones.
#[inline(always)]
pub fn unusual(slot: &[u8; SLOT]) -> &[u8] {
    let end = (slot[0] as usize / 8 + 1) * 8;
    &slot[USUAL..end.max(USUAL)]
}

/// Two slots hold the same name.
#[inline(always)]
pub fn same(one: &[u8; SLOT], other: &[u8; SLOT]) -> bool {
    let (ones, _) = one.as_chunks::<16>();
    let (others, _) = other.as_chunks::<16>();
    let differ = |at: usize| u128::from_ne_bytes(ones[at]) ^ u128::from_ne_bytes(others[at]);
    let usual = differ(0) | differ(1);
    if usual & !ALL_CASES != 0 {
        return false;
    }
    usual == 0 && unusual(one) == unusual(other) || one[0] == other[0] && same_labels(name_in(one), name_in(other))
}

/// The name in a slot.
#[inline(always)]
pub fn name_in(slot: &[u8; SLOT]) -> &[u8] {
    &slot[1..1 + slot[0] as usize]
}

/// Octets of a slot: a length octet and 255 for a name.
pub const SLOT: usize = NAME + 1;

/// The octets of a slot from `from` on are zero.
#[inline(always)]
fn clear_from(slot: &[u8; SLOT], from: usize) -> bool {
    let (parts, _) = slot.as_chunks::<16>();
    let first = from / 16;
    if first == parts.len() {
        return true;
    }
    let mut all = u128::from_le_bytes(parts[first]) >> (from % 16 * 8);
    for part in &parts[first + 1..] {
        all |= u128::from_le_bytes(*part);
    }
    all == 0
}

/// The name in a slot that holds one in standard form: it fills its length, and zeros come after it.
#[inline(always)]
pub fn in_slot(slot: &[u8; SLOT]) -> Option<&[u8]> {
    let length = slot[0] as usize;
    let name = &slot[1..1 + length];
    let scan = scan(name);
    let good = scan.number == 0 && scan.used == length && scan.standard && clear_from(slot, 1 + length);
    good.then_some(name)
}

/// All octets of a slot are zero.
#[inline(always)]
pub fn is_blank(slot: &[u8; SLOT]) -> bool {
    clear_from(slot, 0)
}

/// The answer of `a6plan_standard`: 4 for a name that is malformed or does not fill its slice, then 5 for an output
/// not of 255 octets or figures not of two, then 0 with the standard form, zeros after it, and its length and 0.
#[inline(never)]
pub fn standard(name: &[u8], out: &mut [u8], figures: &mut [u32]) -> u32 {
    out.fill(0);
    figures.fill(0);
    let scan = scan(name);
    if scan.number != 0 || scan.used != name.len() {
        return 4;
    }
    if out.len() != NAME || figures.len() != 2 {
        return 5;
    }
    figures[0] = put_standard(name, scan.standard, out) as u32;
    0
}

/// A slot with the standard form of a name that fills its slice; None for a malformed one.
#[inline(always)]
pub fn slot_of(name: &[u8]) -> Option<[u8; SLOT]> {
    let scan = scan(name);
    if scan.number != 0 || scan.used != name.len() {
        return None;
    }
    let mut slot = [0; SLOT];
    slot[0] = put_standard(name, scan.standard, &mut slot[1..]) as u8;
    Some(slot)
}
