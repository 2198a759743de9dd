//! Tables of DNAMEs along the walk of an address.

use super::names::{self, Name};
use super::plan::{a6_record, any_ttls, dname_record, mix_case, name};
use super::Random;
use crate::plain::names::{below, encode, same, whole, Unit};
use crate::plain::reverse::{start, step, Dname};

/// A table and an address whose name its DNAMEs rewrite.
#[derive(Default)]
pub struct Walk {
    pub table: Vec<u8>,
    pub address: [u8; 16],
}

/// Bits in the run that a list of units ends with.
fn last_run(units: &[Unit]) -> usize {
    units.iter().rev().take_while(|unit| matches!(unit, Unit::Bit(_))).count()
}

/// A target for a DNAME that keeps these units: short names, names that begin with bits, up to and over what a run may
/// hold, names up to and over what a name may hold, names that lead back.
fn target(random: &mut Random, made: &mut Name, kept: &[Unit], dnames: &[Dname]) -> Vec<u8> {
    made.clear();
    match random.below(16) {
        0..=3 => return name(random.pick(&["t", "IP6.X", "a.b", "IP6.ARPA", "ARPA", "ip6.arpa", ""])),
        4..=8 => {
            let near = random.between(254, 258).saturating_sub(last_run(kept));
            let count = if random.once_in(3) && (1..=256).contains(&near) { near } else { random.between(1, 40) };
            let octets: Vec<u8> = (0..32).map(|_| random.octet()).collect();
            made.bits(count, &octets);
            if random.once_in(2) {
                made.label(random.pick(&[b"t", b"u"]));
            }
            made.end();
        }
        9 => names::standard(random, made),
        10 | 11 => {
            let total = random.between(252, 258).saturating_sub(encode(kept).len() - 1);
            let total = if (3..=255).contains(&total) { total } else { 3 };
            let longest = random.pick(&[3, 20, 64, 64, 64]);
            names::of_length(random, made, total, longest, 0);
        }
        12..=14 if !dnames.is_empty() => {
            let (owner, target) = &dnames[random.below(dnames.len())];
            return encode(if random.once_in(2) { owner } else { target });
        }
        _ => made.end(),
    }
    made.octets.clone()
}

/// An owner for the name in hand: a part of it from some unit on, cut between labels or inside a bit label; the name
/// itself; or nearly one of these.
fn owner(random: &mut Random, units: &[Unit]) -> Vec<Unit> {
    let below = match random.below(8) {
        0 => 0,
        1 => units.len(),
        2 => units.len().saturating_sub(random.below(4)),
        3 | 4 => random.below(units.len().min(20) + 1),
        _ => random.below(units.len() + 1),
    };
    let mut owner = units[below..].to_vec();
    if random.once_in(8) {
        let lowest = owner.len().min(9);
        match owner.get_mut(random.below(lowest + 1)) {
            Some(Unit::Bit(bit)) => *bit = !*bit,
            Some(Unit::Label(label)) => {
                let at = random.below(label.len());
                label[at] ^= random.pick(&[0x20, 1]);
            }
            None => {}
        }
    }
    owner
}

/// A table in order of DNAMEs that rewrite the name of an address several times, others that do not apply, and A6
/// records.
pub fn walk(random: &mut Random, made: &mut Name, walk: &mut Walk) {
    let Walk { table, address } = walk;
    *address = [random.pick(&[0, 0xff, 0x5a]); 16];
    if !random.once_in(4) {
        address.fill_with(|| random.octet());
    }
    let mut units = start(address);
    let mut dnames: Vec<Dname> = Vec::new();
    for _ in 0..random.below(7) {
        for _ in 0..random.pick(&[1, 1, 1, 2, 3]) {
            let owner = owner(random, &units);
            if !dnames.iter().any(|(other, _)| same(other, &owner)) {
                let kept = below(&units, &owner).unwrap_or(&units);
                let target = target(random, made, kept, &dnames);
                dnames.push((owner, whole(&target).expect("a target")));
            }
        }
        if let Some(Ok(next)) = step(&dnames, &units) {
            units = next;
        }
    }
    random.shuffle(&mut dnames);
    table.clear();
    for (owner, target) in &dnames {
        if random.once_in(12) {
            table.extend(a6_record(&encode(owner), 64, 7, &encode(target)));
        }
        table.extend(dname_record(&encode(owner), &encode(target)));
    }
    if !random.once_in(4) {
        mix_case(random, table);
    }
    any_ttls(random, table);
}
