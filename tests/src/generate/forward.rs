//! Tables for lookups and collapses: small ones full of loops, deep ones, and those whose work is beyond counting.

use super::names::{self, Name};
use super::plan::{a6_record, any_ttls, dname_record, mix_case, name, usual_ttls, MOST, RECORD};
use super::{a6, Random};
use crate::plain::names::{same, whole, Unit};

/// A table and the names in it, owners and targets, which the table may spell in other ways.
#[derive(Default)]
pub struct Tangle {
    pub table: Vec<u8>,
    pub names: Vec<Vec<u8>>,
}

/// Names that are alike, also in the bit that is a letter's case where there is no letter.
const ALIKE: [&str; 13] = ["", "a", "b", "A", "a.a", "b.a", "B.a", "x.a", "p.a", "ab", "a.b", "[.a", "{.a"];

/// Some name in standard form: alike ones mostly, ones with bit labels that differ in a bit, any.
fn some_name(random: &mut Random, made: &mut Name) -> Vec<u8> {
    made.clear();
    match random.below(8) {
        0 => names::standard(random, made),
        1 | 2 => {
            let octets = [random.pick(&[0x80, 0, 0xff, 0x41, 0x61]); 32];
            made.bits(random.pick(&[1, 2, 8, 9, 64, 256]), &octets);
            if random.once_in(2) {
                made.label(b"a");
            }
            made.end();
        }
        _ => return name(random.pick(&ALIKE)),
    }
    made.octets.clone()
}

/// Up to so many names, each of them once, in one of its spellings.
fn some_names(random: &mut Random, made: &mut Name, number: usize, names: &mut Vec<Vec<u8>>) {
    names.clear();
    let mut known: Vec<Vec<Unit>> = Vec::new();
    for _ in 0..number {
        let name = some_name(random, made);
        let units = whole(&name).expect("a name");
        if !known.iter().any(|other| same(other, &units)) {
            known.push(units);
            names.push(name);
        }
    }
}

/// The values that the records of one table are made of: few, so that lengths are equal and addresses coincide.
struct Palette {
    lengths: Vec<u8>,
    addresses: Vec<u128>,
    /// One record in so many is finished.
    finished: usize,
    /// One target in so many is a name that owns nothing.
    dangling: usize,
    /// One record in so many is a DNAME.
    dnames: usize,
    /// Targets come after their owners in the list of names, and so do not lead back.
    forward: bool,
}

fn palette(random: &mut Random) -> Palette {
    let lengths = random.between(1, 4);
    let addresses = random.between(1, 6);
    Palette {
        lengths: (0..lengths).map(|_| a6::length(random).max(1)).collect(),
        addresses: (0..addresses).map(|_| some_address(random)).collect(),
        finished: random.between(2, 5),
        dangling: random.pick(&[4, 12, 1_000]),
        dnames: random.pick(&[4, 12, 1_000]),
        forward: random.once_in(3),
    }
}

fn some_address(random: &mut Random) -> u128 {
    match random.below(6) {
        0 => 0,
        1 => u128::MAX,
        _ => (random.number() as u128) << 64 | random.number() as u128,
    }
}

/// A table in order of up to `most` records: loops, records that refer to their own owners, equal lengths, longer
/// records that a referrer ignores, targets that own nothing, equal records, and DNAMEs among them.
pub fn tangle(random: &mut Random, made: &mut Name, most: usize, tangle: &mut Tangle) {
    let Tangle { table, names } = tangle;
    table.clear();
    let number = random.pick(&[1, 1, 2, 2, 3, 3, 4, 5]);
    some_names(random, made, number, names);
    let palette = palette(random);
    let mut renamed: Vec<Vec<u8>> = Vec::new();
    let few = random.once_in(3);
    let records = random.between(0, if few { most.min(5) } else { most });
    for _ in 0..records {
        let from = random.below(names.len());
        let owner = &names[from];
        let record = if random.once_in(palette.dnames) && !renamed.contains(owner) {
            renamed.push(owner.clone());
            dname_record(owner, &names[random.below(names.len())])
        } else if table.len() >= RECORD && random.once_in(6) {
            let other = random.below(table.len() / RECORD) * RECORD;
            if table[other + 1] == super::plan::DNAME {
                continue;
            }
            table[other..other + RECORD].try_into().expect("a record")
        } else {
            let address = random.pick(&palette.addresses);
            let last = from + 1 == names.len();
            if random.once_in(palette.finished) || palette.forward && last && random.once_in(2) {
                a6_record(owner, 0, address, &[])
            } else {
                let target = if random.once_in(palette.dangling) {
                    name("dangling.a")
                } else {
                    let least = if palette.forward && !last { from + 1 } else { 0 };
                    names[random.between(least, names.len() - 1)].clone()
                };
                a6_record(owner, random.pick(&palette.lengths), address, &target)
            }
        };
        table.extend(record);
    }
    respell(random, table);
    any_ttls(random, table);
    if random.once_in(8) {
        names.push(name("dangling.a"));
    }
}

/// Puts the letters of a table in either case, three times in four.
fn respell(random: &mut Random, table: &mut [u8]) {
    if !random.once_in(4) {
        mix_case(random, table);
    }
}

/// A table in order of up to `most` records as a plan has them: names in layers, most records longer than those of the
/// layer that they lead to, and finished ones in the last. Now and then a record is shorter, or leads back, so that
/// some records are ignored by some referrers.
pub fn layers(random: &mut Random, made: &mut Name, most: usize, tangle: &mut Tangle) {
    const LENGTHS: [u8; 6] = [100, 64, 48, 40, 32, 16];
    let Tangle { table, names } = tangle;
    table.clear();
    let number = random.between(3, 5);
    some_names(random, made, number, names);
    for _ in 0..random.between(2, most) {
        let layer = random.below(names.len());
        let last = layer + 1 == names.len();
        let address = (random.number() as u128) << 64 | random.number() as u128;
        if last && !random.once_in(6) || random.once_in(8) {
            table.extend(a6_record(&names[layer], 0, address, &[]));
            continue;
        }
        let target = if last || random.once_in(10) { random.below(names.len()) } else { layer + 1 };
        let length = LENGTHS[if random.once_in(3) { random.below(LENGTHS.len()) } else { layer }];
        table.extend(a6_record(&names[layer], length, address, &names[target]));
    }
    if random.once_in(8) {
        let owner = &names[random.below(names.len())];
        table.extend(dname_record(owner, &names[0]));
    }
    respell(random, table);
    any_ttls(random, table);
}

/// The name of step `number` of a deep table.
fn step_name(number: usize) -> Vec<u8> {
    if number.is_multiple_of(3) {
        let mut made = Name::new();
        made.bits(11, &(((number as u16) << 5).to_be_bytes()));
        made.label(b"deep");
        made.end();
        made.octets
    } else {
        name(&format!("n{number}.deep"))
    }
}

/// A table of `records` records in which chains from the first name are up to that long: straight ones with lengths
/// that fall or stay, rings, finished records on the way, few branches, a longer record at which a chain ends. The
/// records stand in any order.
pub fn deep(random: &mut Random, records: usize, tangle: &mut Tangle) {
    let Tangle { table, names } = tangle;
    let kind = random.below(5);
    let extra = if kind == 0 { 0 } else { random.below(8).min(records / 2) };
    let steps = records - extra;
    names.clear();
    names.extend((0..steps).map(step_name));
    let equal = random.once_in(2).then(|| random.between(1, 128));
    let length = |step: usize| equal.unwrap_or(128 - step * 127 / steps) as u8;
    let mut made: Vec<[u8; RECORD]> = Vec::new();
    for step in 0..steps {
        let last = step + 1 == steps;
        let address = some_address(random);
        made.push(if !last {
            a6_record(&names[step], length(step), address, &names[step + 1])
        } else if kind == 1 {
            a6_record(&names[step], length(step), address, &names[random.below(steps)])
        } else {
            a6_record(&names[step], 0, address, &[])
        });
    }
    for _ in 0..extra {
        let step = random.below(steps);
        let address = some_address(random);
        made.push(match kind {
            1 | 2 => a6_record(&names[step], 0, address, &[]),
            3 => a6_record(&names[step], length(step), address, &names[(step + 1) % steps]),
            _ => a6_record(&names[step], 128, address, &names[random.below(steps)]),
        });
    }
    if kind == 4 {
        let step = random.below(steps);
        made[step] = a6_record(&names[step], 128, 0, &names[(step + 1) % steps]);
    }
    random.shuffle(&mut made);
    table.clear();
    table.extend(made.concat());
    respell(random, table);
    any_ttls(random, table);
}

/// One of the two kinds, a tangle once in so many times, with up to this many records of each kind.
pub fn either(random: &mut Random, made: &mut Name, once_in: usize, [most, layered]: [usize; 2], made_of: &mut Tangle) {
    if random.once_in(once_in) {
        tangle(random, made, most, made_of);
    } else {
        layers(random, made, layered, made_of);
    }
}

// Tables whose work is beyond counting.

/// Names that own two records each, both of which lead to the next name; the last one's are finished.
pub fn two_each(records: usize) -> Tangle {
    let steps = records / 2;
    let names: Vec<Vec<u8>> = (0..steps).map(|step| name(&format!("n{step}.two"))).collect();
    let mut table = Vec::with_capacity(records * RECORD);
    for step in 0..steps {
        for side in 1..=2 {
            let address = (side << 96) + (side << 32) + step as u128;
            table.extend(match names.get(step + 1) {
                Some(next) => a6_record(&names[step], 64, address, next),
                None => a6_record(&names[step], 0, address, &[]),
            });
        }
    }
    usual_ttls(&mut table);
    Tangle { table, names }
}

/// One name that owns `loops` records that lead back to it and `finished` finished ones.
pub fn one_name(loops: usize, finished: usize) -> Tangle {
    let owner = name("one.name");
    let mut table = Vec::with_capacity((loops + finished) * RECORD);
    for number in 1..=loops {
        table.extend(a6_record(&owner, 64, number as u128, &owner));
    }
    for number in 1..=finished {
        table.extend(a6_record(&owner, 0, (number as u128) << 64, &[]));
    }
    usual_ttls(&mut table);
    Tangle { table, names: vec![owner] }
}

/// A table made up to `records` with records of other names, half of them before and half after.
pub fn among(tangle: &Tangle, records: usize) -> Tangle {
    let others = records.min(MOST) - tangle.table.len() / RECORD;
    let other = |number: usize| {
        let owner = name(&format!("other-{number}.name"));
        a6_record(&owner, 48, number as u128, &name(&format!("other-{}.name", number / 2)))
    };
    let before: Vec<u8> = (0..others / 2).flat_map(other).collect();
    let after: Vec<u8> = (others / 2..others).flat_map(other).collect();
    Tangle { table: [&before[..], &tangle.table, &after].concat(), names: tangle.names.clone() }
}
