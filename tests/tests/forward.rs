//! `a6plan_lookup` against the reference and the plain rules (01, Chains; T-01, T-03, T-04).

use a6plan_tests::generate::examples::{self, address};
use a6plan_tests::generate::forward::{self as make, Tangle};
use a6plan_tests::generate::names::{self, Name};
use a6plan_tests::generate::plan::{self, a6_record, dname_record, name, with_ttls, HOUR, LONGEST};
use a6plan_tests::generate::Random;
use a6plan_tests::lent;
use a6plan_tests::met::Met;
use a6plan_tests::plain::forward::{self as plain, Graph, Least};
use a6plan_tests::plain::names::{encode, whole};
use a6plan_tests::reference::forward as reference;
use a6plan_tests::reference::plan::{FIGURES, MOST, RECORD};
use a6plan_tests::{ffi, text};
use std::collections::BTreeSet;
use std::thread;

struct Sides(lent::Sides);

impl Sides {
    fn new() -> Sides {
        Sides(lent::Sides::new(16 * 4096))
    }

    /// The library's number with room for so many addresses and TTLs; all that it left is the reference's.
    fn within(&mut self, table: &[u8], name: &[u8], limit: u32, room: usize) -> u32 {
        self.0.lookup(table, name, limit, [16 * room, room, FIGURES])
    }

    /// The addresses and the work of a lookup that is accepted.
    fn found(&mut self, table: &[u8], name: &[u8]) -> (Vec<u128>, u32) {
        assert_eq!(self.within(table, name, 1_000_000, 4_000), 0);
        self.shown()
    }

    /// The addresses and the work that the library left.
    fn shown(&self) -> (Vec<u128>, u32) {
        let [count, work] = self.0.counted();
        let (addresses, _) = self.0.written(16 * count as usize).as_chunks();
        let addresses: Vec<u128> = addresses.iter().map(|octets| u128::from_be_bytes(*octets)).collect();
        assert!(addresses.is_sorted_by(|one, other| one < other), "each address once, in rising order");
        (addresses, work)
    }

    /// The TTLs that the library left.
    fn ttls(&self) -> &[u32] {
        let (ttls, rest) = self.0.ttls.shown().split_at(self.0.counted()[0] as usize);
        assert!(rest.iter().all(|ttl| *ttl == 0), "zeros after the TTLs");
        ttls
    }

    /// The addresses of a lookup that is accepted, with their TTLs.
    fn lasting(&mut self, table: &[u8], name: &[u8]) -> Vec<(u128, u32)> {
        let (addresses, _) = self.found(table, name);
        addresses.into_iter().zip(self.ttls().iter().copied()).collect()
    }

    /// The library's answers are those of the plain rules, which say the addresses, their TTLs and the work, with
    /// limits and rooms at these, one less, zero and large. Gives the number of calls.
    fn around(&mut self, table: &[u8], name: &[u8], least: &Least, work: u32) -> usize {
        let count = least.len();
        let mut limits = vec![(work, count), (u32::MAX, count + 3)];
        if work > 0 {
            limits.extend([(work - 1, count), (0, 0)]);
        }
        if count > 0 {
            limits.extend([(work, count - 1), (work, 0), (work - 1, count - 1)]);
        }
        for (limit, room) in &limits {
            let expected = if work > *limit {
                6
            } else if count > *room {
                7
            } else {
                0
            };
            assert_eq!(self.within(table, name, *limit, *room), expected, "limit {limit}, room {room}");
            if expected == 0 {
                let (shown, counted) = self.shown();
                assert!(shown.iter().eq(least.keys()), "{shown:x?} for {least:x?}");
                assert!(self.ttls().iter().eq(least.values()), "{:?} for {least:x?}", self.ttls());
                assert_eq!(counted, work);
            }
        }
        limits.len()
    }
}

fn addresses(texts: &[&str]) -> Vec<u128> {
    texts.iter().map(|text| address(text)).collect()
}

// 01's examples.

#[test]
fn a_host_and_its_prefix_give_one_address_and_work_2() {
    let mut sides = Sides::new();
    assert_eq!(sides.found(&examples::host(), &name("h.a")), (addresses(&["2001:db8:0:5::7"]), 2));
    assert_eq!(sides.ttls(), [300], "of the prefix, which lasts less long than the host");
}

#[test]
fn a_loop_gives_two_addresses_and_work_3() {
    let mut sides = Sides::new();
    let (table, owner) = (examples::loop_of_one(), name("x.a"));
    assert_eq!(sides.found(&table, &owner), (addresses(&["2001:db8::", "2001:db8::1"]), 3));
    assert_eq!(sides.within(&table, &owner, 3, 2), 0);
    assert_eq!(sides.within(&table, &owner, 2, 2), 6);
    assert_eq!(sides.within(&table, &owner, 3, 1), 7);
    assert_eq!(sides.within(&table, &owner, 2, 1), 6);
}

#[test]
fn a_longer_record_is_ignored_for_its_referrer_only() {
    let mut sides = Sides::new();
    let table = examples::ignored();
    assert_eq!(sides.found(&table, &name("h.a")), (addresses(&["2001:db8::"]), 2));
    assert_eq!(sides.found(&table, &name("p.a")), (addresses(&["2001:db8::", "2001:db8:1::1"]), 3));
    // The same with a referrer long enough, before and after the one that is not.
    for length in [64, 65, 128] {
        let longer = a6_record(&name("h.a"), length, 9, &name("p.a"));
        for table in [[&longer[..], &table].concat(), [&table[..], &longer].concat()] {
            let (_, work) = sides.found(&table, &name("h.a"));
            assert_eq!(work, 2 + 4, "a referrer of length {length}");
        }
    }
}

#[test]
fn section_5_1_gives_three_addresses_in_order_and_work_13() {
    let three = [
        "2345:e:eb22:1:1234:5678:9abc:def0",
        "2345:c1:ca11:1:1234:5678:9abc:def0",
        "2345:d2:da11:1:1234:5678:9abc:def0",
    ];
    let mut sides = Sides::new();
    let host = name("N.X.EXAMPLE");
    assert_eq!(sides.found(&examples::section_5_1(), &host), (addresses(&three), 13));
    // With the carriers' bits in the customers' records: no subscriber names on the way.
    let (found, _) = sides.found(&examples::section_5_1_3(), &host);
    assert_eq!(found, addresses(&three));
}

/// Section 5.1.2: each kind of glue, with the carriers' records, has the name servers at the same addresses, and the
/// first and third together as well.
#[test]
fn the_glue_of_section_5_1_2_gives_the_same_addresses_in_each_option() {
    let mut sides = Sides::new();
    let carriers = examples::carriers();
    for (server, host) in [("NS1.X.EXAMPLE", "1:1:11:111:1111"), ("NS2.X.EXAMPLE", "2:2:22:222:2222")] {
        let prefixes = ["2345:e:eb22", "2345:c1:ca11", "2345:d2:da11"];
        let three: Vec<u128> = prefixes.iter().map(|prefix| address(&format!("{prefix}:{host}"))).collect();
        for options in [&[1][..], &[2], &[3], &[1, 3], &[1, 2, 3]] {
            let glue: Vec<u8> = options.iter().flat_map(|option| examples::glue(*option)).collect();
            let (found, _) = sides.found(&[glue, carriers.clone()].concat(), &name(server));
            assert_eq!(found, three, "options {options:?}");
        }
        assert_eq!(sides.found(&examples::glue(3), &name(server)), (three, 3), "the third alone");
        assert_eq!(sides.found(&examples::glue(2), &name(server)), (vec![], 2), "the second alone");
    }
}

// The numbers and their order.

/// Lengths of outputs and TTLs: those that go together, TTLs one too many and one too few, as many as octets, and
/// outputs of no whole number of addresses.
const OUTPUTS: [(usize, usize); 15] = [
    (0, 0),
    (16, 1),
    (32, 2),
    (0, 1),
    (16, 0),
    (16, 2),
    (32, 1),
    (32, 3),
    (16, 16),
    (1, 0),
    (1, 1),
    (15, 1),
    (17, 1),
    (17, 2),
    (100, 6),
];

/// Tables, names, outputs and TTLs, in order and not, limits and rooms, with the numbers that they earn.
#[test]
fn the_first_number_that_is_earned_is_given() {
    let mut sides = Sides::new();
    let mut tables = plan::earning(&examples::host());
    tables.push((vec![], 0));
    let names =
        [(name("h.a"), 0), (vec![], 4), (vec![1, b'h', 0, 0], 4), (vec![0xc0, 0], 4), (vec![65, 1, 0x40, 0], 4)];
    for (table, of_table) in &tables {
        for (name, of_name) in &names {
            for (out, ttls) in OUTPUTS {
                for figures in [4, 0, 1, 2, 3, 5] {
                    for limit in [0, 2, u32::MAX] {
                        let of_output = if out != 16 * ttls || figures != 4 { 5 } else { 0 };
                        let of_work = if !table.is_empty() && limit < 2 { 6 } else { 0 };
                        let of_room = if !table.is_empty() && out == 0 { 7 } else { 0 };
                        let earned = [*of_table, *of_name, of_output, of_work, of_room];
                        let first = earned.into_iter().find(|number| *number != 0).unwrap_or(0);
                        assert_eq!(sides.0.lookup(table, name, limit, [out, ttls, figures]), first);
                    }
                }
            }
        }
    }
}

/// The given name need not be in standard form, and its letters may be in either case; its records are found by any
/// spelling.
#[test]
fn any_spelling_of_a_name_finds_its_records() {
    let mut sides = Sides::new();
    let owner = text::name(r"\[xABCD/16].h.\[xF0/5].a");
    let table = a6_record(&owner, 0, 7, &[]);
    for spelling in [
        r"\[xABCD/16].h.\[xF0/5].a",
        r"\[xCD/8].\[xAB/8].h.\[xF0/5].a",
        r"\[xD/4].\[xC/4].\[xB/4].\[xA/4].h.\[x0/1].\[xF/4].a",
        r"\[xABCD/16].H.\[xF0/5].a",
        r"\[xCD/8].\[xAB/8].h.\[xF0/5].A",
    ] {
        assert_eq!(sides.found(&table, &text::name(spelling)), (vec![7], 1), "{spelling}");
    }
    for other in [r"\[xAB/8].\[xCD/8].h.\[xF0/5].a", r"\[xABCC/16].h.\[xF0/5].a", r"\[x8BCD/16].h.\[xF0/5].a", "a", ""]
    {
        assert_eq!(sides.found(&table, &text::name(other)), (vec![], 0), "{other}");
    }
}

/// The root is a name like any other: it is asked for, owns, and is a target. DNAMEs play no part.
#[test]
fn the_root_owns_and_is_a_target_and_dnames_play_no_part() {
    let mut sides = Sides::new();
    let (root, host, other) = (name(""), name("h.a"), name("o"));
    let table = [
        a6_record(&host, 64, 7, &root),
        dname_record(&root, &other),
        a6_record(&root, 32, 5 << 64, &other),
        dname_record(&host, &other),
        a6_record(&other, 0, 3 << 96, &[]),
        dname_record(&other, &root),
    ]
    .concat();
    assert_eq!(sides.found(&table, &host), (vec![3 << 96 | 5 << 64 | 7], 3));
    assert_eq!(sides.found(&table, &root), (vec![3 << 96 | 5 << 64], 2));
    let dnames = [dname_record(&host, &other), dname_record(&root, &host)].concat();
    assert_eq!(sides.found(&dnames, &host), (vec![], 0));
}

#[test]
fn no_addresses_and_no_work_pass_limit_0_and_room_0() {
    let mut sides = Sides::new();
    assert_eq!(sides.within(&[], &name("h.a"), 0, 0), 0);
    assert_eq!(sides.within(&examples::host(), &name("o"), 0, 0), 0);
    let dead_end = a6_record(&name("h.a"), 64, 7, &name("nobody"));
    assert_eq!(sides.within(&dead_end, &name("h.a"), 0, 0), 6);
    assert_eq!(sides.within(&dead_end, &name("h.a"), 1, 0), 0);
    assert_eq!(sides.shown(), (vec![], 1));
    let done = a6_record(&name("h.a"), 0, 7, &[]);
    assert_eq!(sides.within(&done, &name("h.a"), 0, 0), 6);
    assert_eq!(sides.within(&done, &name("h.a"), 1, 0), 7);
}

/// Equal records at two positions count apart in the work and give one address.
#[test]
fn equal_records_count_apart() {
    let mut sides = Sides::new();
    for copies in 1..=6_u32 {
        let done = a6_record(&name("h.a"), 0, 7, &[]).repeat(copies as usize);
        assert_eq!(sides.found(&done, &name("h.a")), (vec![7], copies));
        let first = a6_record(&name("h.a"), 64, 1, &name("p.a")).repeat(copies as usize);
        let then = a6_record(&name("p.a"), 0, 5 << 64, &[]).repeat(copies as usize);
        let found = sides.found(&[then, first].concat(), &name("h.a"));
        assert_eq!(found, (vec![5 << 64 | 1], copies + copies * copies));
    }
}

/// Every pair of prefix lengths: the second record is met exactly when it is no longer than the first, and each bit
/// comes from the earliest record that has it.
#[test]
fn every_pair_of_prefix_lengths() {
    let mut sides = Sides::new();
    let mut random = Random::new(31);
    let any = |random: &mut Random| (random.number() as u128) << 64 | random.number() as u128;
    for first in 1..=128 {
        for second in 0..=128 {
            let (one, two, three) = (any(&mut random), any(&mut random), any(&mut random));
            let target = if second == 0 { vec![] } else { name("q") };
            let table = [
                a6_record(&name("h"), first, one, &name("p")),
                a6_record(&name("p"), second, two, &target),
                a6_record(&name("q"), 0, three, &[]),
            ]
            .concat();
            let bit = |number: u8| {
                let from = [(first, one), (second, two), (0, three)];
                let (_, address) = from.iter().find(|(length, _)| *length <= number).expect("the last has every bit");
                address & 1 << (127 - number)
            };
            let spelt: u128 = (0..128).map(bit).sum();
            let expected = match second {
                0 => (vec![spelt], 2),
                _ if second <= first => (vec![spelt], 3),
                _ => (vec![], 1),
            };
            assert_eq!(sides.found(&table, &name("h")), expected, "{first} and {second}");
        }
    }
}

// Letters of either case (T-03).

/// A carrier writes small letters in targets and capitals in owners.
#[test]
fn chains_go_on_where_owners_and_targets_differ_in_case() {
    let mut sides = Sides::new();
    let table = [
        a6_record(&name("h.a"), 64, 7, &name("ip6.example")),
        a6_record(&name("IP6.EXAMPLE"), 48, 5 << 64, &name("ip6.carrier.net")),
        a6_record(&name("Ip6.example"), 48, 6 << 64, &name("IP6.Carrier.Net")),
        a6_record(&name("IP6.CARRIER.NET"), 0, 3 << 96, &[]),
    ]
    .concat();
    let both = vec![3 << 96 | 5 << 64 | 7, 3 << 96 | 6 << 64 | 7];
    for spelling in ["h.a", "H.A", "h.A"] {
        assert_eq!(sides.found(&table, &name(spelling)), (both.clone(), 5), "{spelling}");
    }
    assert_eq!(sides.found(&table, &name("iP6.eXAMPLE")).1, 4);
    assert_eq!(sides.found(&table, &name("ip6.carrier.net")), (vec![3 << 96], 1));
}

/// 01's loop, and the record that a referrer ignores, in letters of any case.
#[test]
fn loops_and_ignored_records_are_known_in_any_letters() {
    let mut sides = Sides::new();
    let mut random = Random::new(38);
    for _ in 0..200 {
        let table = plan::in_either_case(&mut random, &examples::loop_of_one());
        for spelling in ["x.a", "X.a", "x.A", "X.A"] {
            let found = sides.found(&table, &name(spelling));
            assert_eq!(found, (addresses(&["2001:db8::", "2001:db8::1"]), 3), "{spelling}");
        }
        let table = plan::in_either_case(&mut random, &examples::ignored());
        for spelling in ["h.a", "H.a", "h.A", "H.A"] {
            assert_eq!(sides.found(&table, &name(spelling)), (addresses(&["2001:db8::"]), 2), "{spelling}");
        }
    }
}

/// Three records that lead back and five finished ones, each with its own spelling of one name.
#[test]
fn records_of_one_name_in_many_spellings_count_together() {
    let mut sides = Sides::new();
    let mut random = Random::new(39);
    let Tangle { table, names } = make::one_name(3, 5);
    let found = sides.lasting(&table, &names[0]);
    let work = sides.shown().1;
    for _ in 0..500 {
        let respelt = plan::in_either_case(&mut random, &table);
        let given = names::in_either_case(&mut random, &names[0]);
        assert_eq!(sides.lasting(&respelt, &given), found, "{given:02x?}");
        assert_eq!(sides.shown().1, work);
    }
}

/// Owners whose bits look like the letters of the target: the chain ends.
#[test]
fn a_target_does_not_lead_to_bits_that_look_like_its_letters() {
    let mut sides = Sides::new();
    for (target, owner, count) in [
        (r"\[x41/8].a", r"\[x61/8].a", 0),
        (r"\[x41/8].a", r"\[x41/8].A", 1),
        ("A.a", r"\[x41/8].a", 0),
        ("@.a", "`.a", 0),
        ("[.a", "{.a", 0),
        (r"\193.a", r"\225.a", 0),
        ("Z.a", "z.a", 1),
    ] {
        let table = [a6_record(&name("h"), 64, 7, &text::name(target)), a6_record(&text::name(owner), 0, 5 << 64, &[])];
        let (found, work) = sides.found(&table.concat(), &name("h"));
        assert_eq!((found.len(), work), (count, 1 + count as u32), "{target} and {owner}");
    }
}

/// Every name of the realistic plan, owners and targets respelt at random, and the plan of the benchmark in which every
/// second name is: the same addresses, TTLs and work by any spelling of the given name.
#[test]
fn the_realistic_plan_respelt_has_the_same_addresses_ttls_and_work() {
    let mut sides = Sides::new();
    let mut random = Random::new(40);
    let plan = plan::realistic();
    let mut tables = vec![plan.respelt().table];
    tables.extend((0..3).map(|_| plan::in_either_case(&mut random, &plan.table)));
    for name in plan.hosts.iter().chain(&plan.sites).chain(&plan.carriers).chain(&plan.upstreams) {
        let found = sides.lasting(&plan.table, name);
        let work = sides.shown().1;
        assert!(!found.is_empty());
        for table in &tables {
            let given = names::respelt(&mut random, name);
            assert_eq!(sides.lasting(table, &given), found, "{given:02x?}");
            assert_eq!(sides.shown().1, work, "{given:02x?}");
        }
    }
}

// TTLs.

/// A chain of three records, with the least TTL at each place of it.
#[test]
fn an_address_has_the_least_ttl_of_its_chain() {
    let mut sides = Sides::new();
    let (h, p, q) = (name("h"), name("p"), name("q"));
    let chain = [a6_record(&h, 64, 7, &p), a6_record(&p, 32, 5 << 64, &q), a6_record(&q, 0, 3 << 96, &[])].concat();
    let mut least = |ttls: [u32; 3]| sides.lasting(&with_ttls(chain.clone(), &ttls), &h);
    let spelt = 3 << 96 | 5 << 64 | 7;
    for ttls in [[1, 2, 3], [1, 3, 2], [2, 1, 3], [3, 1, 2], [2, 3, 1], [3, 2, 1], [1, 1, 1]] {
        assert_eq!(least(ttls), [(spelt, 1)], "{ttls:?}");
    }
    for ttl in [0, 1, 255, 256, 65_535, 65_536, LONGEST - 1, LONGEST] {
        for ttls in [[ttl, LONGEST, LONGEST], [LONGEST, ttl, LONGEST], [LONGEST, LONGEST, ttl]] {
            assert_eq!(least(ttls), [(spelt, ttl)], "{ttls:?}");
        }
    }
}

/// Two chains to one address, and one to another that shares a record with the second of them.
#[test]
fn an_address_of_two_chains_has_the_least_ttl_of_both() {
    let mut sides = Sides::new();
    let (h, p, q) = (name("h"), name("p"), name("q"));
    let table = [
        a6_record(&h, 64, 7, &p),
        a6_record(&h, 64, 7, &q),
        a6_record(&p, 0, 5 << 64, &[]),
        a6_record(&q, 0, 5 << 64, &[]),
        a6_record(&q, 0, 6 << 64, &[]),
    ]
    .concat();
    for (ttls, one, other) in [
        ([10, 20, 30, 40, 50], 10, 20),
        ([20, 10, 30, 40, 50], 10, 10),
        ([30, 40, 10, 20, 50], 10, 40),
        ([30, 40, 20, 10, 50], 10, 40),
        ([30, 40, 50, 20, 10], 20, 10),
        ([LONGEST, LONGEST, LONGEST, 0, LONGEST], 0, LONGEST),
    ] {
        let lasting = sides.lasting(&with_ttls(table.clone(), &ttls), &h);
        assert_eq!(lasting, [(5 << 64 | 7, one), (6 << 64 | 7, other)], "{ttls:?}");
    }
}

/// y leads back to x, whose one record is then in use: for x that way does not count, for y it does. A way round that
/// comes to no record again counts, though it adds no bit.
#[test]
fn a_record_on_chains_with_repeats_alone_does_not_count() {
    let mut sides = Sides::new();
    let (x, y, prefix) = (name("x"), name("y"), address("2001:db8::"));
    let leading_to = |target: &[u8]| {
        let table = [a6_record(&x, 48, 1, &y), a6_record(&y, 48, 2, target), a6_record(&y, 0, prefix, &[])];
        with_ttls(table.concat(), &[100, 1, 200])
    };
    let back = leading_to(&x);
    assert_eq!(sides.lasting(&back, &x), [(prefix | 1, 100)]);
    assert_eq!(sides.shown().1, 3);
    assert_eq!(sides.lasting(&back, &y), [(prefix, 200), (prefix | 2, 1)]);
    assert_eq!(sides.shown().1, 4);
    assert_eq!(sides.lasting(&leading_to(&y), &x), [(prefix | 1, 1)]);
}

/// A record that the referrer ignores, one that leads nowhere, those of another name, and DNAMEs.
#[test]
fn records_on_no_complete_chain_do_not_count() {
    let (h, p, q) = (name("h"), name("p"), name("q"));
    let table = [
        a6_record(&p, 65, 0, &q),
        a6_record(&p, 64, 0, &name("nobody")),
        a6_record(&q, 0, 5 << 64, &[]),
        dname_record(&h, &q),
        dname_record(&p, &q),
        a6_record(&h, 64, 7, &p),
        a6_record(&p, 0, 5 << 64, &[]),
    ]
    .concat();
    let table = with_ttls(table, &[0, 0, 0, 0, 0, 500, 400]);
    assert_eq!(Sides::new().lasting(&table, &h), [(5 << 64 | 7, 400)]);
}

/// The lists hold other octets before the call, and zeros after it.
#[test]
fn ttls_one_too_many_or_one_too_few_are_5() {
    let mut sides = Sides::new();
    let (table, owner) = (examples::loop_of_one(), name("x.a"));
    for room in 0..=64_usize {
        for ttls in [Some(room + 1), room.checked_sub(1)].into_iter().flatten() {
            let number = sides.0.lookup(&table, &owner, 3, [16 * room, ttls, FIGURES]);
            assert_eq!(number, 5, "{ttls} TTLs for {room} addresses");
            assert!(sides.0.blank());
        }
    }
}

/// 6, 7 and 5 for the figures may come after addresses and TTLs have been found.
#[test]
fn every_refusal_leaves_zeros_in_both_lists() {
    let mut sides = Sides::new();
    let mut met = Met::default();
    let (good, owner) = (examples::loop_of_one(), name("x.a"));
    let mut call = |table: &[u8], name: &[u8], limit: u32, lengths: [usize; 3]| {
        let number = sides.0.lookup(table, name, limit, lengths);
        assert_eq!(sides.0.blank_before(2), number != 0, "{number}");
        met.count(number);
    };
    for (table, _) in plan::earning(&good) {
        call(&table, &owner, 3, [32, 2, FIGURES]);
    }
    call(&good, &owner[1..], 3, [32, 2, FIGURES]);
    call(&good, &owner, 3, [32, 1, FIGURES]);
    call(&good, &owner, 3, [32, 2, FIGURES - 1]);
    call(&good, &owner, 2, [32, 2, FIGURES]);
    call(&good, &owner, 3, [16, 1, FIGURES]);
    met.are("lookup of a loop", &[0, 1, 2, 3, 4, 5, 6, 7], 0);
}

type Lookup = fn(&[u8], &[u8], u32, &mut [u8], &mut [u32], &mut [u32]) -> u32;

/// The addresses and TTLs of every name in small tables are those of all lists of different records that happen to be
/// complete chains.
fn enumerated(lookup: Lookup) {
    const NAMES: usize = 20_000;
    const ROOM: usize = 256;
    let mut random = Random::new(37);
    let (mut made, mut tangle) = (Name::new(), Tangle::default());
    let (mut names, mut differ) = (0, 0);
    while names < NAMES {
        make::either(&mut random, &mut made, 2, [6, 6], &mut tangle);
        let graph = Graph::new(&tangle.table);
        for name in &tangle.names {
            let (mut out, mut ttls, mut figures) = ([0; 16 * ROOM], [0; ROOM], [0; FIGURES]);
            assert_eq!(lookup(&tangle.table, name, u32::MAX, &mut out, &mut ttls, &mut figures), 0);
            let (addresses, _) = out.as_chunks();
            let found = addresses.iter().map(|octets| u128::from_be_bytes(*octets)).zip(ttls);
            let units = whole(name).expect("a name");
            let least = graph.enumerated(&units);
            assert!(found.take(figures[0] as usize).eq(least.clone()), "{name:02x?}: {least:x?}");
            assert_eq!(graph.chains(&units, 10_000).expect("little work").1, least);
            differ += (least.values().collect::<BTreeSet<_>>().len() > 1) as usize;
            names += !least.is_empty() as usize;
        }
    }
    println!("{names} names with addresses, {differ} of them with different TTLs");
    assert!(differ > NAMES / 20);
}

#[test]
fn the_library_has_the_ttls_of_all_lists_that_are_chains() {
    enumerated(ffi::lookup);
}

#[test]
fn the_reference_has_the_ttls_of_all_lists_that_are_chains() {
    enumerated(reference::lookup);
}

// 6 and 7.

/// The work of these is beyond 32 bits, and most of them beyond any number a machine holds. The search stops at the
/// limit.
#[test]
fn work_beyond_32_bits_is_6_at_once() {
    let mut sides = Sides::new();
    let tables = [
        make::two_each(80),
        make::two_each(MOST),
        make::one_name(8, 1_016),
        make::one_name(MOST, 0),
        make::one_name(512, 512),
        make::among(&make::two_each(120), MOST),
    ];
    for tangle in &tables {
        for limit in [0, 1, 2, 100, 65_535, 65_536, 1_000_000] {
            for room in [0, 1, 64] {
                assert_eq!(sides.within(&tangle.table, &tangle.names[0], limit, room), 6, "limit {limit}");
            }
        }
    }
}

/// As above with the largest limit: four thousand million chains are met before the answer, in half a minute or so.
#[test]
#[ignore = "takes a minute"]
fn work_beyond_32_bits_is_6_with_the_largest_limit() {
    let tangle = make::two_each(80);
    assert_eq!(Sides::new().within(&tangle.table, &tangle.names[0], u32::MAX, 64), 6);
}

/// The room fills long before the work is counted: 7 only where the work is within the limit.
#[test]
fn a_full_room_goes_on_counting() {
    let mut sides = Sides::new();
    let tangle = make::one_name(3, 1_000);
    let name = &tangle.names[0];
    // Three loops in any order, each beginning of one followed by each of the finished records.
    let beginnings = 1 + 3 + 6 + 6;
    let work = beginnings - 1 + beginnings * 1_000;
    let (addresses, counted) = sides.found(&tangle.table, name);
    assert_eq!((addresses.len(), counted), (4_000, work));
    for (limit, room, number) in
        [(work, 4_000, 0), (work, 3_999, 7), (work, 0, 7), (work - 1, 4_000, 6), (work - 1, 0, 6)]
    {
        assert_eq!(sides.within(&tangle.table, name, limit, room), number, "limit {limit}, room {room}");
    }
}

// Depth.

/// A chain of 1,024 records with lengths that stay equal, and one with lengths that fall.
fn longest_chains() -> Vec<Tangle> {
    let length = [|_| 64, |step: usize| 128 - (step / 8) as u8];
    let mut tangles = Vec::new();
    for length in length {
        let names: Vec<Vec<u8>> = (0..MOST).map(|step| name(&format!("n{step}.deep"))).collect();
        let mut table = Vec::new();
        for step in 0..MOST - 1 {
            table.extend(a6_record(&names[step], length(step), step as u128, &names[step + 1]));
        }
        table.extend(a6_record(&names[MOST - 1], 0, u128::MAX, &[]));
        tangles.push(Tangle { table, names });
    }
    tangles.push(make::one_name(MOST - 1, 1));
    tangles
}

#[test]
fn a_chain_of_1024_records_is_followed_to_its_end() {
    let mut sides = Sides::new();
    for tangle in &longest_chains()[..2] {
        let (found, work) = sides.found(&tangle.table, &tangle.names[0]);
        assert_eq!((found.len(), work), (1, MOST as u32));
        assert_eq!(sides.within(&tangle.table, &tangle.names[0], MOST as u32 - 1, 1), 6);
        let (_, work) = sides.found(&tangle.table, &tangle.names[MOST / 2]);
        assert_eq!(work, MOST as u32 / 2);
        for place in [0, 1, MOST / 2, MOST - 1] {
            let mut ttls = [HOUR; MOST];
            ttls[place] = 5;
            sides.found(&with_ttls(tangle.table.clone(), &ttls), &tangle.names[0]);
            assert_eq!(sides.ttls(), [5], "the least TTL at {place}");
        }
    }
}

/// What a thread itself needs beside the call, in octets.
const THREAD: usize = 64 << 10;

/// A call that goes 1,024 records deep, in a thread with a stack of 1 MiB and a little for the thread.
#[test]
fn a_chain_of_1024_records_needs_at_most_a_mebioctet_of_stack() {
    for tangle in longest_chains() {
        let call = move || {
            let (mut out, mut ttls, mut figures) = (vec![0; 64 * 16], vec![0; 64], vec![0; FIGURES]);
            ffi::lookup(&tangle.table, &tangle.names[0], 1_000_000, &mut out, &mut ttls, &mut figures)
        };
        let thread = thread::Builder::new().stack_size((1 << 20) + THREAD).spawn(call).expect("a thread");
        let number = thread.join().expect("the call comes back");
        assert!(number == 0 || number == 6, "{number}");
    }
}

// Generated tables.

const GENERATED: usize = 300_000;
/// Chains that the plain rules count before they give up.
const COUNTED: usize = 1_000;

/// Small tables full of loops: the addresses by the fixed point, the TTLs and the work by counting, limits and rooms
/// around them, for every name in the table.
#[test]
fn generated_tangles_have_the_addresses_the_ttls_and_the_work_of_the_plain_rules() {
    let mut sides = Sides::new();
    let mut random = Random::new(32);
    let (mut made, mut tangle) = (Name::new(), Tangle::default());
    let (mut cases, mut calls, mut beyond, mut several, mut repeats) = (0, 0, 0, 0, 0);
    while cases < GENERATED {
        make::tangle(&mut random, &mut made, 12, &mut tangle);
        let Tangle { table, names } = &tangle;
        let graph = Graph::new(table);
        for name in names {
            let units = whole(name).expect("a name");
            let addresses = graph.addresses(&units);
            let name = &names::respelt(&mut random, name);
            match graph.chains(&units, COUNTED) {
                Some((work, least)) => {
                    assert!(addresses.iter().eq(least.keys()), "no address is lost without repeats");
                    calls += sides.around(table, name, &least, work as u32);
                    several += (least.len() > 1) as usize;
                    repeats += (work > table.len() / RECORD) as usize;
                    cases += 1;
                }
                None => {
                    let limit = random.pick(&[0, COUNTED as u32 / 2, COUNTED as u32]);
                    assert_eq!(sides.within(table, name, limit, random.below(40)), 6);
                    // Where the reference can count the work, the addresses are those of the fixed point.
                    if sides.within(table, name, 10_000, 1_000) == 0 {
                        assert!(sides.shown().0.iter().eq(&addresses));
                    }
                    calls += 2;
                    beyond += 1;
                }
            }
        }
    }
    println!("{cases} names, {calls} calls: {beyond} beyond counting, {several} several addresses, {repeats} loops");
    assert!(beyond > GENERATED / 100 && several > GENERATED / 6 && repeats > GENERATED / 6);
}

/// Library, reference and plain rules agree on every octet and every TTL, and every number comes up: tables damaged and
/// not, names good and malformed, outputs, TTLs and figures of any length, any limit.
#[test]
fn generated_calls_agree_octet_for_octet() {
    const CALLS: usize = 300_000;
    let mut sides = Sides::new();
    let mut random = Random::new(33);
    let (mut made, mut tangle) = (Name::new(), Tangle::default());
    let mut met = Met::default();
    for case in 0..CALLS {
        make::tangle(&mut random, &mut made, 9, &mut tangle);
        let Tangle { table, names } = &mut tangle;
        plan::spoil(&mut random, &mut made, table);
        let mut name = names[random.below(names.len())].clone();
        match random.below(12) {
            0 => {
                names::any(&mut random, &mut made);
                name.clone_from(&made.octets);
            }
            1 | 2 => name = names::respelt(&mut random, &name),
            3 if random.once_in(4) => name.push(0),
            _ => {}
        }
        let limit = random.pick(&[0, 1, 2, 3, 5, 8, 20, 100, COUNTED as u32, COUNTED as u32]);
        let out = if random.once_in(12) { random.below(100) } else { 16 * random.pick(&[0, 1, 1, 2, 3, 5, 10, 64]) };
        let ttls = if random.once_in(16) { random.below(out / 16 + 3) } else { out / 16 };
        let figures = if random.once_in(16) { random.below(7) } else { FIGURES };
        let number = sides.0.lookup(table, &name, limit, [out, ttls, figures]);
        met.count(number);
        let left = (sides.0.answer(number), sides.0.ttls.shown().to_vec());
        assert_eq!(left, plain::lookup(table, &name, limit, [out, ttls, figures]), "case {case}");
    }
    met.are("lookup", &[0, 1, 2, 3, 4, 5, 6, 7], CALLS / 100);
}

/// Names of tables that are respelt.
const RESPELT: usize = 100_000;

/// The library leaves the same for a table and for the same table respelt, by any spelling of the given name: the
/// number, the addresses, the TTLs and the work. They are those of the plain rules.
#[test]
fn generated_tables_respelt_have_the_same_addresses_ttls_and_work() {
    let mut sides = Sides::new();
    let mut random = Random::new(41);
    let (mut made, mut tangle) = (Name::new(), Tangle::default());
    let mut met = Met::default();
    let (mut cases, mut several) = (0, 0);
    while cases < RESPELT {
        make::either(&mut random, &mut made, 2, [9, 9], &mut tangle);
        let Tangle { table, names } = &tangle;
        let respelt = plan::in_either_case(&mut random, table);
        for name in names {
            let limit = random.pick(&[2, 20, COUNTED as u32, COUNTED as u32]);
            let room = random.pick(&[0, 1, 3, 64, 64]);
            let number = sides.within(table, name, limit, room);
            let left = (sides.0.answer(number), sides.0.ttls.shown().to_vec());
            let given = names::respelt(&mut random, name);
            let number = sides.within(&respelt, &given, limit, room);
            assert_eq!((sides.0.answer(number), sides.0.ttls.shown().to_vec()), left, "case {cases}");
            assert_eq!(left, plain::lookup(&respelt, &given, limit, [16 * room, room, FIGURES]), "case {cases}");
            met.count(number);
            several += (number == 0 && sides.0.counted()[0] > 1) as usize;
            cases += 1;
        }
    }
    met.are("lookup in respelt tables", &[0, 6, 7], RESPELT / 100);
    println!("{cases} names of respelt tables, {several} with several addresses");
    assert!(several > RESPELT / 12);
}

/// Tables in which chains are up to 1,024 records long.
#[test]
fn generated_deep_tables_have_the_addresses_the_ttls_and_the_work_of_the_plain_rules() {
    let mut sides = Sides::new();
    let mut random = Random::new(34);
    let mut tangle = Tangle::default();
    let (mut deepest, mut counted) = (0, 0);
    for _ in 0..160 {
        let records = random.pick(&[3, 10, 40, 100, 300, 700, 1_023, 1_024]);
        make::deep(&mut random, records, &mut tangle);
        let graph = Graph::new(&tangle.table);
        for step in [0, 0, 1, random.below(tangle.names.len())] {
            let name = &tangle.names[step.min(tangle.names.len() - 1)];
            let units = whole(name).expect("a name");
            if let Some((work, least)) = graph.chains(&units, 20_000) {
                assert!(graph.addresses(&units).iter().eq(least.keys()));
                sides.around(&tangle.table, name, &least, work as u32);
                deepest = deepest.max(work);
                counted += 1;
            } else {
                assert_eq!(sides.within(&tangle.table, name, 20_000, 64), 6);
            }
        }
    }
    println!("{counted} names of deep tables, work up to {deepest}");
    assert!(deepest >= MOST && counted > 300);
}

/// Large tables: every name of the realistic one, and a thousand records of few names.
#[test]
fn large_tables_agree() {
    let mut sides = Sides::new();
    let plan = plan::realistic();
    let graph = Graph::new(&plan.table);
    let (mut hosts, mut sites) = (0, 0);
    for name in plan.hosts.iter().chain(&plan.sites).chain(&plan.carriers).chain(&plan.upstreams) {
        let (found, work) = sides.found(&plan.table, name);
        hosts += (found.len() == 6 && work == 1 + 3 + 6 + 6) as usize;
        sites += (found.len() == 4 && work == 2 + 4 + 4) as usize;
    }
    assert!(hosts > 20 && sites > 100);
    for name in plan.hosts.iter().step_by(9).chain(plan.sites.iter().step_by(50)) {
        let units = whole(name).expect("a name");
        let (work, least) = graph.chains(&units, 1_000).expect("little work");
        sides.around(&plan.table, name, &least, work as u32);
    }
    let mut random = Random::new(35);
    let (mut made, mut tangle) = (Name::new(), Tangle::default());
    for _ in 0..300 {
        make::tangle(&mut random, &mut made, MOST, &mut tangle);
        for name in &tangle.names {
            let limit = random.pick(&[0, 10, 1_000, 20_000]);
            sides.within(&tangle.table, name, limit, random.pick(&[0, 1, 10, 1_000]));
        }
    }
}

/// What the plain rules stand on: the names that a graph lists are those of its records, and encode to them.
#[test]
fn the_plain_graph_lists_the_names_of_its_records() {
    let graph = Graph::new(&examples::section_5_1());
    let names: Vec<Vec<u8>> = graph.names().iter().map(|units| encode(units)).collect();
    assert_eq!(names[..2], [name("N.X.EXAMPLE"), name("SUBNET-1.IP6.X.EXAMPLE")]);
    assert_eq!(names.len(), 11);
}
