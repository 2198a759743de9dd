//! Plan tables: small ones good and damaged, a full realistic one, and the ones that cost most.

use super::names::{self, Name};
use super::{a6, Random};
use crate::plain::plan::Field;

pub const RECORD: usize = 536;
pub const MOST: usize = 1024;
pub const OWNER: usize = 20;
pub const TARGET: usize = 276;
pub const TTL: usize = RECORD - 4;
pub const A6: u8 = 38;
pub const DNAME: u8 = 39;
/// The largest TTL.
pub const LONGEST: u32 = 2_147_483_647;
/// The TTL of records that are made without another one.
pub const HOUR: u32 = 3_600;

/// The octets of a name of ordinary labels, written with points between them.
pub fn name(labels: &str) -> Vec<u8> {
    let mut name = Name::new();
    for label in labels.split('.').filter(|label| !label.is_empty()) {
        name.label(label.as_bytes());
    }
    name.end();
    name.octets
}

/// A record that lasts an hour. The target is empty for an A6 record without one.
pub fn record(kind: u8, length: u8, address: u128, owner: &[u8], target: &[u8]) -> [u8; RECORD] {
    let mut record = [0; RECORD];
    record[1] = kind;
    record[2] = length;
    record[4..20].copy_from_slice(&address.to_be_bytes());
    for (slot, name) in [(OWNER, owner), (TARGET, target)] {
        record[slot] = name.len() as u8;
        record[slot + 1..slot + 1 + name.len()].copy_from_slice(name);
    }
    put_ttl(&mut record, HOUR);
    record
}

/// An A6 record: the address has its first `length` bits cleared.
pub fn a6_record(owner: &[u8], length: u8, address: u128, target: &[u8]) -> [u8; RECORD] {
    record(A6, length, address & u128::MAX.checked_shr(length as u32).unwrap_or(0), owner, target)
}

pub fn dname_record(owner: &[u8], target: &[u8]) -> [u8; RECORD] {
    record(DNAME, 0, 0, owner, target)
}

// Letters.

/// The names in a table, owners and targets, in turn.
fn names_in(table: &mut [u8]) -> impl Iterator<Item = &mut [u8]> {
    let slots = table.chunks_exact_mut(RECORD).flat_map(|record| record[OWNER..TTL].chunks_exact_mut(TARGET - OWNER));
    let names = slots.map(|slot| {
        let (length, name) = slot.split_at_mut(1);
        &mut name[..length[0] as usize]
    });
    names.filter(|name| !name.is_empty())
}

/// Puts the letters in the owners and targets of a table in either case (T-03). A table in order stays so.
pub fn mix_case(random: &mut Random, table: &mut [u8]) {
    names_in(table).for_each(|name| names::mix_case(random, name));
}

/// A table with the letters of its names in either case.
pub fn in_either_case(random: &mut Random, table: &[u8]) -> Vec<u8> {
    let mut table = table.to_vec();
    mix_case(random, &mut table);
    table
}

// TTLs.

/// Gives a record this TTL.
pub fn put_ttl(record: &mut [u8], ttl: u32) {
    record[TTL..].copy_from_slice(&ttl.to_be_bytes());
}

/// A record with this TTL.
pub fn lasting(mut record: [u8; RECORD], ttl: u32) -> [u8; RECORD] {
    put_ttl(&mut record, ttl);
    record
}

/// A table with these TTLs, one for each record.
pub fn with_ttls(mut table: Vec<u8>, ttls: &[u32]) -> Vec<u8> {
    assert_eq!(table.len(), ttls.len() * RECORD, "a TTL for each record");
    for (record, ttl) in table.chunks_exact_mut(RECORD).zip(ttls) {
        put_ttl(record, *ttl);
    }
    table
}

/// Gives each record of a table one of these TTLs.
fn mix_ttls(random: &mut Random, table: &mut [u8], ttls: &[u32]) {
    for record in table.chunks_exact_mut(RECORD) {
        put_ttl(record, random.pick(ttls));
    }
}

/// TTLs as plans have them, from five minutes to a day.
pub fn usual_ttls(table: &mut [u8]) {
    mix_ttls(&mut Random::new(4), table, &[300, 900, HOUR, 4 * HOUR, 24 * HOUR]);
}

/// Any TTLs, few of them in one table, so that some are equal.
pub fn any_ttls(random: &mut Random, table: &mut [u8]) {
    let ttls: Vec<u32> = (0..random.between(1, 8)).map(|_| some_ttl(random)).collect();
    mix_ttls(random, table, &ttls);
}

/// Some TTL: one at the edges, a small one, or any.
pub fn some_ttl(random: &mut Random) -> u32 {
    match random.below(4) {
        0 => random.pick(&[0, 1, LONGEST - 1, LONGEST]),
        1 => random.below(10) as u32,
        _ => random.number() as u32 & LONGEST,
    }
}

// The full tables.

/// A plan as it is used: 1,024 records, among them 60 DNAMEs; 340 sites with two or three carriers each, 24 carriers
/// with two upstreams each, 12 upstreams, 88 hosts. Chains from a host have four records: host 64, site 48,
/// carrier 32, upstream 0.
pub struct Realistic {
    pub table: Vec<u8>,
    /// Names that own A6 records.
    pub hosts: Vec<Vec<u8>>,
    pub sites: Vec<Vec<u8>>,
    pub carriers: Vec<Vec<u8>>,
    pub upstreams: Vec<Vec<u8>>,
    /// Addresses of the first 24 hosts that DNAMEs lead, in three rewrites, to the names of their sites.
    pub addresses: Vec<[u8; 16]>,
}

pub const SITES: usize = 340;
const CARRIERS: usize = 24;
const UPSTREAMS: usize = 12;
const HOSTS: usize = 88;
/// Sites, and carriers, whose reverse names are handed on.
const REVERSE: usize = 24;

fn upstream_name(upstream: usize) -> String {
    format!("IP6.UPSTREAM-{upstream}.NET")
}

fn carrier_name(carrier: usize) -> String {
    format!("IP6.CARRIER-{carrier}.NET")
}

fn site_name(site: usize) -> String {
    format!("IP6.SITE-{site}.EXAMPLE")
}

/// The upstreams of a carrier and the carriers of a site.
fn upstreams_of(carrier: usize) -> [usize; 2] {
    [carrier % UPSTREAMS, (carrier + 5) % UPSTREAMS]
}

fn carriers_of(site: usize) -> Vec<usize> {
    let carriers = [site % CARRIERS, (site + 7) % CARRIERS, (site + 13) % CARRIERS];
    carriers[..if site % 5 < 2 { 3 } else { 2 }].to_vec()
}

/// The part of the address that each adds.
fn upstream_bits(upstream: usize) -> u128 {
    (0x2001_0d00 + upstream as u128) << 96
}

fn carrier_bits(carrier: usize) -> u128 {
    (0x4100 + carrier as u128) << 80
}

fn site_bits(site: usize) -> u128 {
    (0x0100 + site as u128) << 64
}

fn host_bits(host: usize) -> u128 {
    0x0a00_20ff_fe81_0000 + host as u128
}

/// A name of one bit label and the labels above it.
fn bits_under(count: usize, bits: u128, above: &str) -> Vec<u8> {
    let mut octets = Name::new();
    octets.bits(count, &bits.to_be_bytes());
    [octets.octets, name(above)].concat()
}

pub fn realistic() -> Realistic {
    let mut table = Vec::with_capacity(MOST * RECORD);
    let mut addresses = Vec::new();
    let host_name = |host: usize| name(&format!("H{}.SITE-{host}.EXAMPLE", host + 1));
    for upstream in 0..UPSTREAMS {
        let owner = upstream_name(upstream);
        table.extend(a6_record(&name(&owner), 0, upstream_bits(upstream), &[]));
        table.extend(dname_record(&bits_under(32, upstream_bits(upstream), "IP6.ARPA"), &name(&owner)));
    }
    for carrier in 0..CARRIERS {
        let owner = carrier_name(carrier);
        for upstream in upstreams_of(carrier) {
            table.extend(a6_record(&name(&owner), 32, carrier_bits(carrier), &name(&upstream_name(upstream))));
        }
        let above = upstream_name(upstreams_of(carrier)[0]);
        table.extend(dname_record(&bits_under(16, carrier_bits(carrier) << 32, &above), &name(&owner)));
    }
    for site in 0..SITES {
        let owner = site_name(site);
        for carrier in carriers_of(site) {
            table.extend(a6_record(&name(&owner), 48, site_bits(site), &name(&carrier_name(carrier))));
        }
        if site < HOSTS {
            table.extend(a6_record(&host_name(site), 64, host_bits(site), &name(&owner)));
        }
        if site < REVERSE {
            let carrier = carriers_of(site)[0];
            table.extend(dname_record(&bits_under(16, site_bits(site) << 48, &carrier_name(carrier)), &name(&owner)));
            let upstream = upstreams_of(carrier)[0];
            let address = upstream_bits(upstream) | carrier_bits(carrier) | site_bits(site) | host_bits(site);
            addresses.push(address.to_be_bytes());
        }
    }
    usual_ttls(&mut table);
    Realistic {
        table,
        hosts: (0..HOSTS).map(host_name).collect(),
        sites: (0..SITES).map(|site| name(&site_name(site))).collect(),
        carriers: (0..CARRIERS).map(|carrier| name(&carrier_name(carrier))).collect(),
        upstreams: (0..UPSTREAMS).map(|upstream| name(&upstream_name(upstream))).collect(),
        addresses,
    }
}

impl Realistic {
    /// The same plan in which every second name, in the table and in each list, has its letters in either case. So most
    /// targets are spelt in another way than the owners that they lead to.
    pub fn respelt(&self) -> Realistic {
        let mut random = Random::new(5);
        let mut table = self.table.clone();
        names_in(&mut table).skip(1).step_by(2).for_each(|name| names::mix_case(&mut random, name));
        let mut list = |names: &[Vec<u8>]| {
            let mut names = names.to_vec();
            names.iter_mut().skip(1).step_by(2).for_each(|name| names::mix_case(&mut random, name));
            names
        };
        Realistic {
            table,
            hosts: list(&self.hosts),
            sites: list(&self.sites),
            carriers: list(&self.carriers),
            upstreams: list(&self.upstreams),
            addresses: self.addresses.clone(),
        }
    }
}

/// A name of 255 octets in labels of at most `longest` octets, and the places of the octets inside its labels.
pub fn full_name(longest: usize, filling: u8) -> (Vec<u8>, Vec<usize>) {
    let (mut octets, mut places) = (Vec::new(), Vec::new());
    while octets.len() < 254 {
        let left = 254 - octets.len();
        let size = if left == longest + 2 { longest } else { left.min(longest + 1) };
        octets.push(size as u8 - 1);
        places.extend(octets.len()..octets.len() + size - 1);
        octets.resize(octets.len() + size - 1, filling);
    }
    octets.push(0);
    (octets, places)
}

/// 1,024 DNAMEs whose owners have 255 octets and share all but the last two inside a label. Their targets have 255
/// octets too. Labels have at most `longest` octets: 63 makes few of them, 1 makes 127.
pub fn worst(longest: usize) -> Vec<u8> {
    let (mut owner, places) = full_name(longest, b'o');
    let (target, _) = full_name(longest, b't');
    let [.., high, low] = places[..] else { panic!("a full name has two octets in labels") };
    let mut table = Vec::with_capacity(MOST * RECORD);
    for index in 0..MOST {
        owner[high] = b'A' + (index / 32) as u8;
        owner[low] = b'A' + (index % 32) as u8;
        table.extend(dname_record(&owner, &target));
    }
    table
}

// Small tables.

/// Names that make neighbours alike: equal ones come up, ones that differ in case alone, and ones that differ in a
/// little, also in the bit that is a letter's case where there is no letter.
const ALIKE: [&str; 15] =
    ["", "a", "b", "A", "a.a", "A.a", "a.b", "ab", "b.a", "aa", "p.a", "q.a", "a.a.a.a.a.a.a.a.b", "@", "`"];

/// The octets of some name in standard form, from the few alike ones or any.
pub fn some_name(random: &mut Random, made: &mut Name) -> Vec<u8> {
    if random.once_in(3) {
        names::standard(random, made);
        made.octets.clone()
    } else if random.once_in(4) {
        bits_under(random.pick(&[1, 7, 8]), random.pick(&[0, 0x80, 0x41, 0x61]) << 120, random.pick(&ALIKE))
    } else {
        name(random.pick(&ALIKE))
    }
}

/// A record that keeps the layout.
pub fn good_record(random: &mut Random, made: &mut Name) -> [u8; RECORD] {
    let owner = some_name(random, made);
    let target = some_name(random, made);
    let mut record = if random.once_in(2) {
        dname_record(&owner, &target)
    } else {
        let length = a6::length(random);
        let address = (random.number() as u128) << 64 | random.number() as u128;
        a6_record(&owner, length, address, if length == 0 { &[] } else { &target })
    };
    put_ttl(&mut record, some_ttl(random));
    record
}

/// A table of `records` records that keep the layout; some share their owners, in one spelling or in several.
pub fn good_table(random: &mut Random, made: &mut Name, records: usize, table: &mut Vec<u8>) {
    table.clear();
    for _ in 0..records {
        let record = if table.len() >= RECORD && random.once_in(5) {
            let other = random.below(table.len() / RECORD);
            table[other * RECORD..(other + 1) * RECORD].try_into().expect("a record")
        } else {
            good_record(random, made)
        };
        table.extend(record);
    }
    if random.once_in(2) {
        mix_case(random, table);
    }
}

/// A small table, good or damaged in some way: one record, mostly, or several.
pub fn any_table(random: &mut Random, made: &mut Name, table: &mut Vec<u8>) {
    let records = random.pick(&[0, 1, 1, 1, 2, 2, 2, 3, 3, 4, 6, 9]);
    good_table(random, made, records, table);
    if random.once_in(3) {
        return;
    }
    if random.once_in(16) {
        match random.below(3) {
            0 => table.truncate(random.below(table.len() + 1)),
            1 => table.extend((0..random.between(1, 40)).map(|_| 0)),
            _ => table.extend([0; RECORD - 1]),
        }
    }
    for _ in 0..random.pick(&[1, 1, 1, 2, 3]) {
        damage_one(random, made, table);
    }
}

/// A table in order, and tables made of it that are not, with the numbers that they earn.
pub fn earning(good: &[u8]) -> Vec<(Vec<u8>, u32)> {
    let shared = dname_record(&name("s.a"), &name("t.a"));
    let mut bad = good.to_vec();
    bad[3] = 1;
    let mut lasting = good.to_vec();
    put_ttl(&mut lasting[good.len() - RECORD..], LONGEST + 1);
    vec![
        (good.to_vec(), 0),
        (good[1..].to_vec(), 1),
        (good[..good.len() - 1].to_vec(), 1),
        (good.repeat(MOST * RECORD / good.len() + 1), 1),
        (bad, 2),
        ([&lasting[..], &shared, &shared].concat(), 2),
        (lasting, 2),
        ([good, &shared, &shared].concat(), 3),
        ([good, &shared, &dname_record(&name("S.a"), &name("t.a"))].concat(), 3),
    ]
}

/// Damages a table in order now and then: its length, a record, two DNAMEs with one owner.
pub fn spoil(random: &mut Random, made: &mut Name, table: &mut Vec<u8>) {
    match random.below(24) {
        0 => table.truncate(random.below(table.len() + 1)),
        1 => table.extend(vec![0; random.between(1, 40)]),
        2 | 3 => damage_one(random, made, table),
        4 => {
            for owner in ["twice", random.pick(&["twice", "TWIce"])] {
                table.extend(dname_record(&name(owner), &name("t")));
            }
        }
        _ => {}
    }
}

/// The fields of a good record that can be broken: the address of a finished A6 record may be any.
pub fn breakable(record: &[u8]) -> Vec<Field> {
    let finished = record[1] == A6 && record[2] == 0;
    Field::ALL.into_iter().filter(|field| !finished || *field != Field::Address).collect()
}

/// Breaks this field of a good record, one of `breakable`, and none before it.
pub fn break_field(record: &mut [u8], field: Field) {
    match field {
        Field::Type => record[0] = 1,
        Field::Length => record[2] = 129,
        Field::Zero => record[3] = 1,
        Field::Address => record[4] |= 128,
        Field::Owner => record[OWNER] ^= 1,
        Field::Target => record[TARGET] ^= 1,
        Field::Ttl => record[TTL] |= 128,
    }
}

/// Damages some record of a table, if it has one, in one field, mostly, or several.
pub fn damage_one(random: &mut Random, made: &mut Name, table: &mut [u8]) {
    let records = table.len() / RECORD;
    if let Some(record) = table.chunks_exact_mut(RECORD).nth(random.below(records.max(1))) {
        for _ in 0..random.pick(&[1, 1, 1, 2, 3]) {
            damage(random, made, record);
        }
    }
}

/// Damages one field of a record. What comes of it may happen to keep the layout.
fn damage(random: &mut Random, made: &mut Name, record: &mut [u8]) {
    let slot = random.pick(&[OWNER, TARGET]);
    let named = record[slot] as usize;
    let length = record[2] as usize;
    match random.below(17) {
        0 => record[random.below(2)] = random.octet(),
        1 => record[1] = A6 + DNAME - record[1],
        2 => record[2] = random.octet(),
        3 => record[2] = a6::length(random),
        4 => record[3] = random.between(1, 255) as u8,
        5 => record[4 + random.below(16)] |= 1 << random.below(8),
        6 if length > 0 => record[4 + (length - 1) / 8] |= 128 >> ((length - 1) % 8),
        7 => record[slot] = record[slot].wrapping_add(random.pick(&[1, 255])),
        8 => record[slot] = random.octet(),
        9 if named < 255 => record[slot + 1 + random.between(named, 254)] = random.between(1, 255) as u8,
        10 => record[slot..slot + 256].fill(0),
        11..=14 => {
            // Any octets as the name: malformed, not in standard form, or good.
            names::any(random, made);
            let fits = made.octets.len().min(255);
            record[slot..slot + 256].fill(0);
            record[slot] = fits as u8;
            record[slot + 1..slot + 1 + fits].copy_from_slice(&made.octets[..fits]);
        }
        15 => put_ttl(record, random.pick(&[LONGEST + 1, LONGEST + 2, u32::MAX])),
        _ => record[random.below(RECORD)] = random.octet(),
    }
}
