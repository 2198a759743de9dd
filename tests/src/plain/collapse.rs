//! Collapse (01, Collapse of a name X; T-03), record by record and bit by bit.

use super::names::{self, Unit};
use super::plan::RECORD;
use super::{address, demand, plan, table_answer, Answer};

/// A record: its octets and what they say.
struct Record<'a> {
    octets: &'a [u8],
    a6: bool,
    length: usize,
    owner: Vec<Unit>,
    /// None at prefix length 0 of an A6 record.
    target: Option<Vec<Unit>>,
}

impl Record<'_> {
    /// An A6 record of the name with a prefix length over 0.
    fn is_unfinished_of(&self, name: &[Unit]) -> bool {
        self.length > 0 && self.is_owned_by(name)
    }

    /// An A6 record of the name.
    fn is_owned_by(&self, name: &[Unit]) -> bool {
        self.a6 && names::same(&self.owner, name)
    }

    /// An A6 record with the name as its target.
    fn refers_to(&self, name: &[Unit]) -> bool {
        self.a6 && self.target.as_ref().is_some_and(|target| names::same(target, name))
    }

    /// This record with another one of its target folded into it: the owner is spelt as here, the target as there.
    fn folded(&self, other: &Record) -> Vec<u8> {
        let mut octets = vec![0, 38, other.octets[2], 0];
        octets.extend(address::join(&other.octets[4..20], &self.octets[4..20], self.length));
        octets.extend(plan::owner_slot(self.octets));
        octets.extend(plan::target_slot(other.octets));
        octets.extend(plan::ttl(self.octets).min(plan::ttl(other.octets)).to_be_bytes());
        octets
    }
}

/// A table in order, read.
pub struct Plan<'a> {
    records: Vec<Record<'a>>,
}

impl Plan<'_> {
    pub fn new(table: &[u8]) -> Plan<'_> {
        let read = |octets| Record {
            octets,
            a6: octets[1] == 38,
            length: octets[2] as usize,
            owner: plan::name_in(plan::owner_slot(octets)).expect("an owner"),
            target: plan::name_in(plan::target_slot(octets)),
        };
        Plan { records: table.chunks(RECORD).map(read).collect() }
    }

    /// The table that the rule makes.
    pub fn fold(&self, name: &[Unit]) -> Vec<u8> {
        let mut folded = Vec::new();
        for record in &self.records {
            if record.is_unfinished_of(name) {
                let target = record.target.as_ref().expect("a target");
                for other in &self.records {
                    if other.is_owned_by(target) && other.length <= record.length {
                        folded.extend(record.folded(other));
                    }
                }
            } else {
                folded.extend(record.octets);
            }
        }
        folded
    }

    /// The name owns an A6 record.
    pub fn owns(&self, name: &[Unit]) -> bool {
        self.records.iter().any(|record| record.is_owned_by(name))
    }

    /// Some A6 record with the name as its target is shorter than an unfinished one of the name.
    pub fn is_reviving(&self, name: &[Unit]) -> bool {
        let mut referrers = self.records.iter().filter(|record| record.refers_to(name));
        referrers.any(|referrer| {
            self.records.iter().any(|record| record.is_unfinished_of(name) && referrer.length < record.length)
        })
    }
}

/// The answer of `a6plan_collapse` for an output and figures of these lengths.
pub fn collapse(table: &[u8], name: &[u8], out: usize, figures: usize) -> Answer {
    let given = || {
        let name = names::whole(name).ok_or(4_u32)?;
        demand(5, out.is_multiple_of(RECORD) && figures == 4)?;
        let plan = Plan::new(table);
        demand(9, !plan.is_reviving(&name))?;
        let folded = plan.fold(&name);
        let records = folded.len() / RECORD;
        demand(7, folded.len() <= out && records <= 1024)?;
        Ok((folded, [records as u32, 0]))
    };
    table_answer(table, given, out, figures)
}
