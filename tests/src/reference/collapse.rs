//! Collapse of a name (01, Collapse of a name X; T-03, T-04).
//!
//! One pass checks the table, notes where the A6 records of each owner stand, and finds the shortest record that refers
//! to the name. The records to be folded are then known by their places; all between them is copied in one piece.

use super::plan::{self, Index, A6, FIGURES, MOST, RECORD};
use super::{address, names};

/// The records that take the place of this one: those of its target that are no longer.
#[inline(always)]
fn followers<'a>(table: &'a [u8], index: &'a Index, record: &'a [u8]) -> impl Iterator<Item = &'a [u8]> {
    let length = plan::length_of(record);
    let owned = index.owned(table, plan::target_of(record)).map(|at| plan::record(table, at));
    owned.filter(move |follower| plan::length_of(follower) <= length)
}

/// Copies octets to the beginning of the output. Gives their number.
fn copy(octets: &[u8], out: &mut [u8]) -> usize {
    out[..octets.len()].copy_from_slice(octets);
    octets.len()
}

/// The answer of `a6plan_collapse`: 1 to 3 for the table, with the place of its fault, 4 for a malformed name, 5 for an
/// output not of whole records or figures not of four, 9 where a record that refers to the name is shorter than one to
/// be folded, 7 where the records pass the room or 1,024, then 0 with the records, zeros after them, and their number
/// and 0.
#[inline(never)]
pub fn collapse(table: &[u8], name: &[u8], out: &mut [u8], figures: &mut [u32]) -> u32 {
    out.fill(0);
    figures.fill(0);
    // A malformed name is refused after the table; until then no target is compared with it.
    let name = names::slot_of(name);
    let mut index = Index::new();
    let mut shortest = u8::MAX;
    let checked = plan::check_and(table, |at, record| {
        if plan::type_of(record) != A6 {
            return;
        }
        index.add(at, record);
        let length = plan::length_of(record);
        if length > 0 && length < shortest && name.is_some_and(|name| names::same(plan::target_of(record), &name)) {
            shortest = length;
        }
    });
    if let Err(fault) = checked {
        return fault.refuse(figures, FIGURES);
    }
    let Some(name) = name else { return 4 };
    if !out.len().is_multiple_of(RECORD) || figures.len() != FIGURES {
        return 5;
    }
    let unfinished = || index.owned(table, &name).filter(|at| plan::length_of(plan::record(table, *at)) > 0);
    let mut records = table.len() / RECORD;
    for at in unfinished() {
        let record = plan::record(table, at);
        if plan::length_of(record) > shortest {
            return 9;
        }
        records = records - 1 + followers(table, &index, record).count();
    }
    if records > MOST || records > out.len() / RECORD {
        return 7;
    }
    let (mut from, mut to) = (0, 0);
    for at in unfinished() {
        to += copy(&table[from..at * RECORD], &mut out[to..]);
        from = (at + 1) * RECORD;
        let record = plan::record(table, at);
        let (owner, bits) = (plan::owner_of(record), plan::address_of(record));
        for follower in followers(table, &index, record) {
            let address = address::join(plan::address_of(follower), bits, plan::length_of(record));
            let length = plan::length_of(follower);
            let ttl = plan::ttl_of(record).min(plan::ttl_of(follower));
            plan::put_a6(&mut out[to..], length, address, owner, plan::target_of(follower), ttl);
            to += RECORD;
        }
    }
    copy(&table[from..], &mut out[to..]);
    figures[0] = records as u32;
    0
}
