//! Reverse lookup (01, Reverse names; T-03, T-04): the walk from an address by DNAMEs.
//!
//! Names stay in standard form, so the labels of an owner stand at the end of a name beneath it, letters in either case,
//! all but the lowest where that is a bit label: its bits are then the first ones of the name's bit label at that place.

use super::names::{bits_of, name_in, same_labels, Bits, BIT_LABEL, NAME, RUN};
use super::plan::{self, DNAME, FIGURES};

/// Octets of a bit label with so many bits.
#[inline(always)]
fn size_of(bits: usize) -> usize {
    2 + bits.div_ceil(8)
}

/// Bits in the bit label that a name begins with; 0 where it begins with another.
#[inline(always)]
fn bits_at(name: &[u8]) -> usize {
    if name[0] == BIT_LABEL {
        bits_of(name[1])
    } else {
        0
    }
}

/// A DNAME of the table: its place, the bits in the bit label that its owner begins with, or 0, and the octets of the
/// owner after it.
struct Dname {
    record: u16,
    bits: u16,
    rest: u8,
}

impl Dname {
    #[inline(always)]
    fn new(index: usize, record: &[u8]) -> Dname {
        let owner = name_in(plan::owner_of(record));
        let bits = bits_at(owner);
        let label = if bits > 0 { size_of(bits) } else { 0 };
        Dname { record: index as u16, bits: bits as u16, rest: (owner.len() - label) as u8 }
    }
}

/// Where a DNAME cuts a name: the label at which the owner begins, and the bits of this label that stay below the
/// owner. Of two owners that a name lies beneath, the one that begins at a lower place has more units, and at one
/// place the one that leaves fewer bits.
#[derive(Clone, Copy, PartialEq, Eq, PartialOrd, Ord)]
struct Cut {
    at: usize,
    stay: usize,
}

/// A name in standard form.
struct Name {
    octets: [u8; NAME],
    length: usize,
    /// At each octet that begins a label, the first one apart: where the label before it begins. NONE elsewhere.
    before: [u8; NAME],
}

const NONE: u8 = 255;

impl Name {
    /// The name of these parts, which fit.
    #[inline(always)]
    fn new(parts: &[&[u8]]) -> Name {
        let mut name = Name { octets: [0; NAME], length: 0, before: [NONE; NAME] };
        for part in parts {
            name.octets[name.length..name.length + part.len()].copy_from_slice(part);
            name.length += part.len();
        }
        let mut at = 0;
        while name.octets[at] != 0 {
            let bits = bits_at(&name.octets[at..]);
            let size = if bits > 0 { size_of(bits) } else { 1 + name.octets[at] as usize };
            name.before[at + size] = at as u8;
            at += size;
        }
        name
    }

    /// Where the DNAME cuts the name, if it applies.
    #[inline(always)]
    fn cut(&self, table: &[u8], dname: &Dname) -> Option<Cut> {
        let rest = dname.rest as usize;
        let from = self.length.checked_sub(rest)?;
        let before = self.before[from];
        if before == NONE {
            return None;
        }
        let owner = name_in(plan::owner_of(plan::record(table, dname.record as usize)));
        if !same_labels(&owner[owner.len() - rest..], &self.octets[from..self.length]) {
            return None;
        }
        if dname.bits == 0 {
            return Some(Cut { at: from, stay: 0 });
        }
        let (at, go) = (before as usize, dname.bits as usize);
        let stay = bits_at(&self.octets[at..]).checked_sub(go)?;
        let (mine, theirs) = (&self.octets[at + 2..], &owner[2..]);
        let whole = go / 8;
        let others = !(0xff_u8 >> (go % 8));
        let same = mine[..whole] == theirs[..whole] && (mine[whole] ^ theirs[whole]) & others == 0;
        (same && (stay > 0 || at > 0)).then_some(Cut { at, stay })
    }

    /// The name with all from the cut on replaced by the target; None for a run over 256 bits or over 255 octets.
    #[inline(always)]
    fn rewritten(&self, cut: Cut, target: &[u8]) -> Option<Name> {
        // The label that is the last to stay, if it is a bit label, or what stays of the one that is cut.
        let label = if cut.stay > 0 { cut.at } else { self.before[cut.at] as usize };
        let all = bits_at(&self.octets[label..]);
        if all == 0 {
            return (cut.at + target.len() <= NAME).then(|| Name::new(&[&self.octets[..cut.at], target]));
        }
        let mut run = Bits::from(&self.octets[label + 2..label + size_of(all)]);
        let mut bits = all;
        if cut.stay > 0 {
            run = run.raised(all - cut.stay);
            bits = cut.stay;
        }
        let first = bits_at(target);
        let mut rest = target;
        if first > 0 {
            bits += first;
            if bits > RUN {
                return None;
            }
            run = Bits::from(&target[2..size_of(first)]).or(run.lowered(first));
            rest = &target[size_of(first)..];
        }
        let size = size_of(bits);
        if label + size + rest.len() > NAME {
            return None;
        }
        let mut merged = [0; 34];
        merged[0] = BIT_LABEL;
        merged[1] = bits as u8;
        run.put(&mut merged[2..size]);
        Some(Name::new(&[&self.octets[..label], &merged[..size], rest]))
    }
}

/// The answer of `a6plan_reverse`: 1 to 3 for the table, with the place of its fault, 4 for an address not of sixteen
/// octets, 5 for an output not of 255 or figures not of four, then for each rewrite 6 where none is left and 8 where it
/// gives too much, then 0 with the last name, zeros after it, and its length and the rewrites.
#[inline(never)]
pub fn lookup(table: &[u8], address: &[u8], limit: u8, out: &mut [u8], figures: &mut [u32]) -> u32 {
    out.fill(0);
    figures.fill(0);
    let mut dnames = Vec::with_capacity(64);
    let checked = plan::check_and(table, |index, record| {
        if plan::type_of(record) == DNAME {
            dnames.push(Dname::new(index, record));
        }
    });
    if let Err(fault) = checked {
        return fault.refuse(figures, FIGURES);
    }
    if address.len() != 16 {
        return 4;
    }
    if out.len() != NAME || figures.len() != FIGURES {
        return 5;
    }
    let mut name = Name::new(&[&[BIT_LABEL, 128], address, &[3], b"IP6", &[4], b"ARPA", &[0]]);
    let mut rewrites = 0;
    loop {
        let cuts = dnames.iter().filter_map(|dname| Some((name.cut(table, dname)?, dname.record)));
        let Some((cut, record)) = cuts.min_by_key(|(cut, _)| *cut) else { break };
        if rewrites == limit as u32 {
            return 6;
        }
        let target = name_in(plan::target_of(plan::record(table, record as usize)));
        let Some(next) = name.rewritten(cut, target) else { return 8 };
        name = next;
        rewrites += 1;
    }
    out.copy_from_slice(&name.octets);
    figures[..2].copy_from_slice(&[name.length as u32, rewrites]);
    0
}
