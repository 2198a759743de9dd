//! Chains and addresses (01, Chains; T-03), twice over: chains as lists of records with no repeats, whose number is the
//! work and whose records give the TTLs (T-01), and the addresses of all finite chains, repeats allowed, as a fixed
//! point.

use super::names::{self, Unit};
use super::{demand, plan, table_answer, Answer};
use std::collections::{BTreeMap, BTreeSet, HashSet};

/// An A6 record. Names are numbers in the list of those in the table.
struct Record {
    owner: usize,
    length: usize,
    address: u128,
    /// None at prefix length 0.
    target: Option<usize>,
    ttl: u32,
}

/// Addresses with the least TTL of each.
pub type Least = BTreeMap<u128, u32>;

/// The A6 records of a table in order, and the distinct names in them as first met.
pub struct Graph {
    records: Vec<Record>,
    names: Vec<Vec<Unit>>,
}

/// Bit `number` of an address; 0 is the highest.
fn bit(address: u128, number: usize) -> u128 {
    address & 1 << (127 - number)
}

impl Graph {
    /// The graph of a table in order.
    pub fn new(table: &[u8]) -> Graph {
        let mut graph = Graph { records: Vec::new(), names: Vec::new() };
        for record in table.chunks(plan::RECORD).filter(|record| record[1] == 38) {
            let length = record[2] as usize;
            let owner = graph.add(plan::name_in(plan::owner_slot(record)).expect("an owner"));
            let target = plan::name_in(plan::target_slot(record)).map(|name| graph.add(name));
            let address = u128::from_be_bytes(record[4..20].try_into().expect("sixteen octets"));
            graph.records.push(Record { owner, length, address, target, ttl: plan::ttl(record) });
        }
        graph
    }

    fn add(&mut self, name: Vec<Unit>) -> usize {
        self.find(&name).unwrap_or_else(|| {
            self.names.push(name);
            self.names.len() - 1
        })
    }

    fn find(&self, name: &[Unit]) -> Option<usize> {
        self.names.iter().position(|known| names::same(known, name))
    }

    /// The names in the table's A6 records, owners and targets.
    pub fn names(&self) -> &[Vec<Unit>] {
        &self.names
    }

    /// The positions of a name's records whose prefix length is at most `most`.
    fn owned(&self, name: usize, most: usize) -> Vec<usize> {
        let fits = |at: &usize| self.records[*at].owner == name && self.records[*at].length <= most;
        (0..self.records.len()).filter(fits).collect()
    }

    /// The records that may follow each: those of its target that are no longer.
    fn followers(&self) -> Vec<Vec<usize>> {
        let after = |record: &Record| record.target.map_or(vec![], |target| self.owned(target, record.length));
        self.records.iter().map(after).collect()
    }

    /// The address that a complete chain spells, one bit after another: each from the earliest record in the chain
    /// whose prefix length is not greater than the bit's number.
    fn spelt(&self, chain: &[usize]) -> u128 {
        let records: Vec<&Record> = chain.iter().map(|at| &self.records[*at]).collect();
        let from = |number: usize| records.iter().find(|record| record.length <= number).expect("a complete chain");
        (0..128).map(|number| bit(from(number).address, number)).sum()
    }

    /// Adds the address that a complete chain spells, and takes its records into the least TTL of this address.
    fn add_chain(&self, chain: &[usize], found: &mut Least) {
        let least = found.entry(self.spelt(chain)).or_insert(u32::MAX);
        for at in chain {
            *least = self.records[*at].ttl.min(*least);
        }
    }

    /// The work of a name, and the addresses of its complete chains without repeats with the least TTL among all their
    /// records; None where the work is more than `most`.
    pub fn chains(&self, name: &[Unit], most: usize) -> Option<(usize, Least)> {
        let mut found = (0, Least::new());
        let Some(name) = self.find(name) else { return Some(found) };
        let followers = self.followers();
        // Chains that are still to be counted and made longer.
        let mut waiting: Vec<Vec<usize>> = self.owned(name, 128).into_iter().map(|at| vec![at]).collect();
        while let Some(chain) = waiting.pop() {
            found.0 += 1;
            if found.0 + waiting.len() > most {
                return None;
            }
            let last = chain[chain.len() - 1];
            if self.records[last].length == 0 {
                self.add_chain(&chain, &mut found.1);
            }
            let unused = followers[last].iter().filter(|at| !chain.contains(at));
            waiting.extend(unused.map(|at| [&chain[..], &[*at]].concat()));
        }
        Some(found)
    }

    /// The same addresses and TTLs without a search, for tables of a few records: every list of different records is
    /// looked at, and those that are complete chains of the name count.
    pub fn enumerated(&self, name: &[Unit]) -> Least {
        let mut found = Least::new();
        let Some(name) = self.find(name) else { return found };
        for list in arrangements(self.records.len()) {
            if self.is_complete_chain(name, &list) {
                self.add_chain(&list, &mut found);
            }
        }
        found
    }

    /// The first record is the name's, each other one belongs to the target of the record before it and is no longer,
    /// and the last is finished.
    fn is_complete_chain(&self, name: usize, list: &[usize]) -> bool {
        let records: Vec<&Record> = list.iter().map(|at| &self.records[*at]).collect();
        let (Some(first), Some(last)) = (records.first(), records.last()) else { return false };
        let follows = |pair: &[&Record]| pair[0].target == Some(pair[1].owner) && pair[1].length <= pair[0].length;
        first.owner == name && records.windows(2).all(follows) && last.length == 0
    }

    /// The addresses of all complete finite chains of a name, repeats allowed: from each state (a name to go on with,
    /// how many bits are open, the others) the records of the name lead to addresses or to further states, until no
    /// new state comes up.
    pub fn addresses(&self, name: &[Unit]) -> BTreeSet<u128> {
        let mut found = BTreeSet::new();
        let Some(name) = self.find(name) else { return found };
        let mut known = HashSet::from([(name, 128, 0)]);
        let mut new = vec![(name, 128, 0)];
        while let Some((name, open, suffix)) = new.pop() {
            for at in self.owned(name, open) {
                let record = &self.records[at];
                let between: u128 = (record.length..open).map(|number| bit(record.address, number)).sum();
                let suffix = suffix + between;
                match record.target {
                    None => _ = found.insert(suffix),
                    Some(target) => {
                        let state = (target, record.length, suffix);
                        if known.insert(state) {
                            new.push(state);
                        }
                    }
                }
            }
        }
        found
    }
}

/// Every list of different numbers below `size`, the empty one too.
pub fn arrangements(size: usize) -> Vec<Vec<usize>> {
    let mut lists = vec![vec![]];
    let mut at = 0;
    while at < lists.len() {
        for next in 0..size {
            if !lists[at].contains(&next) {
                lists.push([&lists[at][..], &[next]].concat());
            }
        }
        at += 1;
    }
    lists
}

/// The answer of `a6plan_lookup` and the TTLs that it leaves, for an output, TTLs and figures of these lengths. The
/// limit is one that counting can reach.
pub fn lookup(table: &[u8], name: &[u8], limit: u32, [out, ttls, figures]: [usize; 3]) -> (Answer, Vec<u32>) {
    let mut left = vec![0; ttls];
    let given = || {
        let name = names::whole(name).ok_or(4_u32)?;
        demand(5, out.is_multiple_of(16) && ttls == out / 16 && figures == 4)?;
        let graph = Graph::new(table);
        let (work, least) = graph.chains(&name, limit as usize).ok_or(6_u32)?;
        let addresses = graph.addresses(&name);
        demand(7, addresses.len() <= out / 16)?;
        for (ttl, address) in left.iter_mut().zip(&addresses) {
            *ttl = least[address];
        }
        let octets = addresses.iter().flat_map(|address| address.to_be_bytes()).collect();
        Ok((octets, [addresses.len() as u32, work as u32]))
    };
    (table_answer(table, given, out, figures), left)
}
