//! Address lookup (01, Chains; T-01, T-03, T-04): the addresses of a name, how long each lasts, and the work.
//!
//! One pass checks the table and notes where the A6 records of each owner stand. The records that the given name leads
//! to are numbered as they are met, those of a name in a ring by rising prefix length. From there on names, octets and
//! the rest of the table play no part: the search takes a record out of its ring while it is in use, so each of its
//! steps is a chain. The least TTL of the chain goes along.

use super::names::{self, SLOT};
use super::plan::{self, Index, A6, FIGURES, FIRST, MOST};

/// Places in the rings: a record each, a mark for each name that owns one, and one for the names that own nothing.
const PLACES: usize = 2 * MOST + 1;
/// The length at a mark: more than any.
const MARK: u16 = 255;
/// The ring of the names that own nothing: a mark alone.
const NOTHING: usize = 0;

/// What the search reads first of a record.
#[derive(Clone, Copy, Default)]
struct Head {
    /// The mark of the target's ring.
    target: u16,
    /// The prefix length.
    length: u16,
    ttl: u32,
}

/// The records that a name leads to, in rings. A ring begins and ends with a mark.
struct Rings {
    next: [u16; PLACES],
    prev: [u16; PLACES],
    heads: [Head; PLACES],
    addresses: [u128; PLACES],
    size: usize,
}

/// The names met so far that own records: the first record of each, and where its ring begins.
struct Met {
    firsts: Vec<usize>,
    marks: [u16; MOST],
    size: usize,
}

impl Met {
    fn new() -> Met {
        Met { firsts: Vec::with_capacity(64), marks: [0; MOST], size: NOTHING + 1 }
    }

    /// The mark of the ring of a name.
    fn mark(&mut self, table: &[u8], index: &Index, name: &[u8; SLOT]) -> u16 {
        let owned = index.owned(table, name);
        let Some(first) = owned.clone().next() else { return NOTHING as u16 };
        if self.marks[first] == 0 {
            self.marks[first] = self.size as u16;
            self.firsts.push(first);
            self.size += 1 + owned.count();
        }
        self.marks[first]
    }
}

/// A record for a ring, with its address.
type Record = (Head, u128);

impl Rings {
    #[inline(always)]
    fn new() -> Rings {
        let heads = [Head::default(); PLACES];
        Rings { next: [0; PLACES], prev: [0; PLACES], heads, addresses: [0; PLACES], size: 0 }
    }

    /// Adds the rings of all names that chains from `name` can come to. Gives the mark of its own.
    fn fill(&mut self, table: &[u8], index: &Index, name: &[u8; SLOT]) -> usize {
        self.add(&[]);
        let mut met = Met::new();
        let begin = met.mark(table, index, name);
        let mut ring: Vec<Record> = Vec::with_capacity(64);
        let mut done = 0;
        while let Some(first) = met.firsts.get(done) {
            ring.clear();
            for at in index.owned(table, plan::owner_of(plan::record(table, *first))) {
                let record = plan::record(table, at);
                let length = plan::length_of(record) as u16;
                let target = if length > 0 { met.mark(table, index, plan::target_of(record)) } else { 0 };
                ring.push((Head { target, length, ttl: plan::ttl_of(record) }, plan::address_of(record)));
            }
            ring.sort_by_key(|(head, _)| head.length);
            self.add(&ring);
            done += 1;
        }
        begin as usize
    }

    /// Adds the ring of these records.
    fn add(&mut self, ring: &[Record]) {
        let begin = self.size;
        let end = begin + ring.len();
        self.heads[begin].length = MARK;
        self.prev[begin] = end as u16;
        self.next[end] = begin as u16;
        for (at, (head, address)) in (begin + 1..).zip(ring) {
            self.next[at - 1] = at as u16;
            self.prev[at] = at as u16 - 1;
            self.heads[at] = *head;
            self.addresses[at] = *address;
        }
        self.size = end + 1;
    }
}

/// The distinct addresses met so far, with the least TTL of each, and a list of them by a hash: at each place the number
/// of an address from one on, 0 where there is none.
struct Found {
    lasting: Vec<(u128, u32)>,
    room: usize,
    places: Vec<u32>,
    shift: u32,
    /// An address was met for which there is no room.
    over: bool,
}

impl Found {
    fn new(room: usize) -> Found {
        let places = (2 * room).next_power_of_two().max(16);
        let lasting = Vec::with_capacity(room.min(64));
        Found { lasting, room, places: vec![0; places], shift: 64 - places.trailing_zeros(), over: false }
    }

    #[inline(always)]
    fn keep(&mut self, address: u128, ttl: u32) {
        if self.over {
            return;
        }
        let folded = (address as u64) ^ ((address >> 64) as u64).rotate_left(29);
        let mut place = (folded.wrapping_mul(0x9e37_79b9_7f4a_7c15) >> self.shift) as usize;
        loop {
            let held = self.places[place] as usize;
            if held == 0 {
                return self.put(place, address, ttl);
            }
            let (known, least) = &mut self.lasting[held - 1];
            if *known == address {
                // Written only where it changes: the next look at it would wait for the writing.
                if ttl < *least {
                    *least = ttl;
                }
                return;
            }
            place = (place + 1) & (self.places.len() - 1);
        }
    }

    #[cold]
    fn put(&mut self, place: usize, address: u128, ttl: u32) {
        if self.lasting.len() == self.room {
            self.over = true;
            return;
        }
        self.lasting.push((address, ttl));
        self.places[place] = self.lasting.len() as u32;
    }
}

struct Search {
    rings: Rings,
    /// Chains that may still be met.
    left: u32,
    found: Found,
}

impl Search {
    /// Meets every chain that goes on with a record of the ring at `mark`, while `open` bits of the address are open
    /// and the others are spelt, by records that last `least` seconds or longer. False where there are more than may
    /// be met.
    fn search(&mut self, mark: usize, open: u16, spelt: u128, least: u32) -> bool {
        let mask = FIRST[open as usize];
        let mut at = self.rings.next[mark] as usize;
        loop {
            let Head { target, length, ttl } = self.rings.heads[at];
            if length > open {
                return true;
            }
            if self.left == 0 {
                return false;
            }
            self.left -= 1;
            let (spelt, least) = (spelt | self.rings.addresses[at] & mask, least.min(ttl));
            if length == 0 {
                self.found.keep(spelt, least);
            } else if !self.step(at, target as usize, length, spelt, least) {
                return false;
            }
            at = self.rings.next[at] as usize;
        }
    }

    /// Goes on from the record at `at` to its target, with the record out of its ring.
    #[inline(always)]
    fn step(&mut self, at: usize, target: usize, length: u16, spelt: u128, least: u32) -> bool {
        let (next, prev) = (self.rings.next[at], self.rings.prev[at]);
        self.rings.next[prev as usize] = next;
        self.rings.prev[next as usize] = prev;
        let within = self.search(target, length, spelt, least);
        self.rings.next[prev as usize] = at as u16;
        self.rings.prev[next as usize] = at as u16;
        within
    }
}

/// The answer of `a6plan_lookup`: 1 to 3 for the table, with the place of its fault, 4 for a malformed name, 5 for an
/// output not of whole addresses, TTLs not as many as those or figures not of four, 6 where the work passes the limit, 7
/// where the addresses pass the room, then 0 with the addresses in rising order and their TTLs, zeros after both, and
/// their count and the work.
#[inline(never)]
pub fn lookup(table: &[u8], name: &[u8], limit: u32, out: &mut [u8], ttls: &mut [u32], figures: &mut [u32]) -> u32 {
    out.fill(0);
    ttls.fill(0);
    figures.fill(0);
    let mut index = Index::new();
    let checked = plan::check_and(table, |at, record| {
        if plan::type_of(record) == A6 {
            index.add(at, record);
        }
    });
    if let Err(fault) = checked {
        return fault.refuse(figures, FIGURES);
    }
    let Some(name) = names::slot_of(name) else { return 4 };
    let (addresses, []) = out.as_chunks_mut() else { return 5 };
    if ttls.len() != addresses.len() || figures.len() != FIGURES {
        return 5;
    }
    let mut search = Search { rings: Rings::new(), left: limit, found: Found::new(ttls.len()) };
    let begin = search.rings.fill(table, &index, &name);
    if !search.search(begin, 128, 0, u32::MAX) {
        return 6;
    }
    if search.found.over {
        return 7;
    }
    let mut found = search.found.lasting;
    found.sort_unstable();
    figures[..2].copy_from_slice(&[found.len() as u32, limit - search.left]);
    for (at, (address, ttl)) in found.into_iter().enumerate() {
        addresses[at] = address.to_be_bytes();
        ttls[at] = ttl;
    }
    0
}
