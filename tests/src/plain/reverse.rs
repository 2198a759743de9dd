//! Reverse names (01, Reverse names; T-03) as lists of units.

use super::names::{self, Unit};
use super::{demand, plan, table_answer, Answer};

/// The units of the name that stands for an address: its bits, the lowest first, then IP6 and ARPA in capitals.
pub fn start(address: &[u8]) -> Vec<Unit> {
    let bits = address.iter().flat_map(|octet| (0..8).map(move |bit| octet >> (7 - bit) & 1 == 1));
    let mut units: Vec<Unit> = bits.map(Unit::Bit).collect();
    units.reverse();
    units.extend([Unit::Label(b"IP6".to_vec()), Unit::Label(b"ARPA".to_vec())]);
    units
}

/// A DNAME: its owner's units and its target's.
pub type Dname = (Vec<Unit>, Vec<Unit>);

/// The DNAMEs of a table in order.
pub fn dnames(table: &[u8]) -> Vec<Dname> {
    let name = |slot: &[u8]| plan::name_in(slot).expect("a name");
    let dnames = table.chunks(plan::RECORD).filter(|record| record[1] == 39);
    dnames.map(|record| (name(plan::owner_slot(record)), name(plan::target_slot(record)))).collect()
}

/// The DNAME of most units among those with the name strictly beneath their owners, and the units below its owner.
fn applying<'a>(dnames: &'a [Dname], name: &'a [Unit]) -> Option<(&'a [Unit], &'a Dname)> {
    let beneath = dnames.iter().filter_map(|dname| Some((names::below(name, &dname.0)?, dname)));
    beneath.filter(|(below, _)| !below.is_empty()).max_by_key(|(_, (owner, _))| owner.len())
}

/// The name that a rewrite gives, its units spelt as in the name and in the target; None where none is due, 8 where it
/// gives too much.
pub fn step(dnames: &[Dname], name: &[Unit]) -> Option<Result<Vec<Unit>, u32>> {
    let (below, (_, target)) = applying(dnames, name)?;
    let next = [below, target].concat();
    Some(if names::longest_run(&next) > 256 || names::encode(&next).len() > 255 { Err(8) } else { Ok(next) })
}

/// The end of the walk and the number of rewrites, or 6 or 8.
pub fn walk(dnames: &[Dname], start: Vec<Unit>, limit: u8) -> Result<(Vec<Unit>, u32), u32> {
    let mut name = start;
    let mut rewrites = 0;
    while let Some(next) = step(dnames, &name) {
        if rewrites == limit as u32 {
            return Err(6);
        }
        name = next?;
        rewrites += 1;
    }
    Ok((name, rewrites))
}

/// The answer of `a6plan_reverse` for an output and figures of these lengths.
pub fn lookup(table: &[u8], address: &[u8], limit: u8, out: usize, figures: usize) -> Answer {
    let given = || {
        demand(4, address.len() == 16)?;
        demand(5, out == 255 && figures == 4)?;
        let (name, rewrites) = walk(&dnames(table), start(address), limit)?;
        let octets = names::encode(&name);
        let length = octets.len() as u32;
        Ok((octets, [length, rewrites]))
    };
    table_answer(table, given, out, figures)
}
