//! `a6plan_collapse` against the reference and the plain rules, and lists of collapses (01, Collapse of a name X; T-03,
//! T-04).

use a6plan_tests::generate::examples::{self, address};
use a6plan_tests::generate::forward::{self as make, Tangle};
use a6plan_tests::generate::names::{self, Name};
use a6plan_tests::generate::plan::{self, a6_record, dname_record, name, realistic, with_ttls, HOUR, LONGEST};
use a6plan_tests::generate::Random;
use a6plan_tests::lent;
use a6plan_tests::met::Met;
use a6plan_tests::plain::collapse::{self as plain, Plan};
use a6plan_tests::plain::forward::Graph;
use a6plan_tests::plain::names::{encode, whole, Unit};
use a6plan_tests::plain::plan::{check, same};
use a6plan_tests::reference::plan::{FIGURES, MOST, RECORD};
use a6plan_tests::{ffi, text};
use std::collections::BTreeSet;

struct Sides(lent::Sides);

impl Sides {
    fn new() -> Sides {
        Sides(lent::Sides::new(1_200 * RECORD))
    }

    /// The library's number with an output of this length; all that it left is the reference's.
    fn number(&mut self, table: &[u8], name: &[u8], out: usize) -> u32 {
        self.0.collapse(table, name, [out, FIGURES])
    }

    /// The number with room for so many records.
    fn within(&mut self, table: &[u8], name: &[u8], room: usize) -> u32 {
        self.number(table, name, room * RECORD)
    }

    /// The table that the library left.
    fn shown(&self) -> &[u8] {
        let [records, zero] = self.0.counted();
        assert_eq!(zero, 0);
        self.0.written(records as usize * RECORD)
    }

    /// The table in which the name is collapsed.
    fn collapsed(&mut self, table: &[u8], name: &[u8]) -> Vec<u8> {
        let room = 4 * (table.len() / RECORD) + 4;
        assert_eq!(self.within(table, name, room.min(MOST)), 0, "{name:02x?} is collapsed");
        self.shown().to_vec()
    }
}

/// An A6 record from texts; no target at prefix length 0.
fn a6(owner: &str, length: u8, suffix: &str, target: &str) -> [u8; RECORD] {
    let target = if length == 0 { vec![] } else { name(target) };
    a6_record(&name(owner), length, address(suffix), &target)
}

// 01's examples.

#[test]
fn a_host_takes_the_bits_of_its_prefix() {
    let collapsed = Sides::new().collapsed(&examples::host(), &name("h.a"));
    let expected = [a6("h.a", 0, "2001:db8:0:5::7", ""), a6("p.a", 0, "2001:db8:0:5::", "")];
    assert_eq!(collapsed, with_ttls(expected.concat(), &[300, 300]));
}

/// 01, Errors we have met, 5: without the test the host would gain an address.
#[test]
fn a_name_with_a_record_that_a_referrer_ignores_is_refused() {
    let mut sides = Sides::new();
    let table = examples::ignored();
    for room in [0, 1, 3, 4, MOST] {
        assert_eq!(sides.within(&table, &name("p.a"), room), 9, "room {room}");
    }
    let units = whole(&name("p.a")).expect("a name");
    let host = whole(&name("h.a")).expect("a name");
    let without_test = Graph::new(&Plan::new(&table).fold(&units)).addresses(&host);
    let gained: Vec<u128> = without_test.difference(&Graph::new(&table).addresses(&host)).copied().collect();
    assert_eq!(gained, [address("2001:db8:1::")]);
    // The others can be collapsed.
    let expected = [a6("h.a", 0, "2001:db8::", "").to_vec(), table[RECORD..].to_vec()].concat();
    assert_eq!(sides.collapsed(&table, &name("h.a")), expected);
    assert_eq!(sides.collapsed(&table, &name("q.a")), table);
}

/// The record that leads back to its owner is one of the records that take its place.
#[test]
fn a_loop_keeps_its_record_and_gains_a_finished_one() {
    let mut sides = Sides::new();
    let table = examples::loop_of_one();
    let back = a6("x.a", 48, "::1", "x.a");
    let expected = [back, a6("x.a", 0, "2001:db8::1", ""), a6("x.a", 0, "2001:db8::", "")].concat();
    assert_eq!(sides.collapsed(&table, &name("x.a")), expected);
    let finished = a6("x.a", 0, "2001:db8::1", "");
    let again = [back, finished, finished, finished, a6("x.a", 0, "2001:db8::", "")].concat();
    assert_eq!(sides.collapsed(&expected, &name("x.a")), again);
}

/// RFC 2874, 5.1.2: each name server collapsed twice has the records of the second option, and collapsed as far as it
/// goes those of the third; the other records stay.
#[test]
fn the_second_and_third_glue_of_section_5_1_2_are_collapses_of_the_first() {
    let mut sides = Sides::new();
    let mut table = [examples::glue(1), examples::carriers()].concat();
    let others = table[2 * RECORD..].to_vec();
    for (option, times) in [(2, 2), (3, 3)] {
        for server in ["NS1.X.EXAMPLE", "NS2.X.EXAMPLE"] {
            for _ in 0..times {
                table = sides.collapsed(&table, &name(server));
            }
        }
        assert_eq!(table, [examples::glue(option), others.clone()].concat(), "option {option}");
    }
    // By way of the subnets and the site: the same glue, and shorter chains for the others.
    let mut table = [examples::glue(1), examples::carriers()].concat();
    for owner in ["IP6.X.EXAMPLE", "SUBNET-1.IP6.X.EXAMPLE", "NS1.X.EXAMPLE"] {
        while table.chunks(RECORD).any(|record| record[2] > 0 && record[21..].starts_with(&name(owner))) {
            table = sides.collapsed(&table, &name(owner));
        }
    }
    assert_eq!(table[..3 * RECORD], examples::glue(3)[..3 * RECORD]);
}

// The rule.

/// A record goes where its target owns nothing, or nothing that is no longer.
#[test]
fn a_record_with_nothing_to_take_its_place_goes() {
    let mut sides = Sides::new();
    let keep = a6("o", 0, "::5", "");
    let table = [keep, a6("x", 48, "::1", "nobody"), keep].concat();
    assert_eq!(sides.collapsed(&table, &name("x")), [keep, keep].concat());
    let longer = a6("p", 49, "::2", "o");
    let table = [a6("x", 48, "::1", "p"), longer].concat();
    assert_eq!(sides.collapsed(&table, &name("x")), longer);
    let table = a6("x", 48, "::1", "nobody");
    assert_eq!(sides.within(&table, &name("x"), 0), 0, "no records need no room");
    assert_eq!(sides.shown(), []);
    let dname = dname_record(&name("p"), &name("o"));
    let table = [a6("x", 48, "::1", "p"), dname].concat();
    assert_eq!(sides.collapsed(&table, &name("x")), dname, "a DNAME takes no record's place");
}

/// Each of the name's records is replaced at its place, by the table before; all else is copied, DNAMEs too.
#[test]
fn the_records_that_take_a_place_stand_in_table_order() {
    let mut sides = Sides::new();
    let dname = dname_record(&name("x"), &name("q"));
    let table = [
        a6("q", 0, "2001:db8::", ""),
        a6("x", 64, "::1", "p"),
        dname,
        a6("p", 32, "0:0:2::", "q"),
        a6("x", 0, "::9", ""),
        a6("x", 48, "::3", "q"),
        a6("p", 64, "::", "x"),
        a6("p", 65, "::", "q"),
        a6("x", 64, "::4", "nobody"),
    ];
    let expected = [
        table[0],
        a6("x", 32, "0:0:2::1", "q"),
        a6("x", 64, "::1", "x"),
        dname,
        table[3],
        table[4],
        a6("x", 0, "2001:db8::3", ""),
        table[6],
        table[7],
    ];
    assert_eq!(sides.collapsed(&table.concat(), &name("x")), expected.concat());
}

/// Each record that takes a place has the smaller TTL of the two that it is made of; all others keep theirs.
#[test]
fn the_smaller_ttl_of_the_two_is_taken() {
    let mut sides = Sides::new();
    let table = [
        a6("x", 64, "::1", "p"),
        a6("x", 0, "::9", ""),
        a6("p", 0, "2001:db8::", ""),
        a6("p", 48, "::", "q"),
        a6("p", 65, "::", "q"),
        dname_record(&name("x"), &name("p")),
        a6("q", 0, "::", ""),
    ];
    let folded = [a6("x", 0, "2001:db8::1", ""), a6("x", 48, "::1", "q")];
    let expected = [&folded[..], &table[1..]].concat().concat();
    for (own, others, taken) in [
        (5, [3, 7], [3, 5]),
        (5, [7, 3], [5, 3]),
        (5, [5, 5], [5, 5]),
        (0, [LONGEST, 1], [0, 0]),
        (LONGEST, [0, LONGEST], [0, LONGEST]),
        (256, [255, 65_536], [255, 256]),
    ] {
        let [one, two] = others;
        let collapsed = sides.collapsed(&with_ttls(table.concat(), &[own, 1, one, two, 0, 0, HOUR]), &name("x"));
        let [first, second] = taken;
        let expected = with_ttls(expected.clone(), &[first, second, 1, one, two, 0, 0, HOUR]);
        assert!(collapsed == expected, "{own} with {others:?}");
    }
}

/// Every pair of prefix lengths: which bits come from which record, and which record is too long.
#[test]
fn every_pair_of_prefix_lengths() {
    let mut sides = Sides::new();
    let mut random = Random::new(51);
    let any = |random: &mut Random| (random.number() as u128) << 64 | random.number() as u128;
    for own in 1..=128 {
        for other in 0..=128 {
            let (one, two) = (any(&mut random), any(&mut random));
            let target = if other == 0 { vec![] } else { name("q") };
            let table = [a6_record(&name("x"), own, one, &name("p")), a6_record(&name("p"), other, two, &target)];
            let kept = u128::MAX.checked_shr(own as u32).unwrap_or(0);
            let both = one & kept | two & !kept;
            let expected = if other <= own {
                [a6_record(&name("x"), other, both, &target), table[1]].concat()
            } else {
                table[1].to_vec()
            };
            assert_eq!(sides.collapsed(&table.concat(), &name("x")), expected, "{own} and {other}");
        }
    }
}

/// 9 is exact: every pair of a referrer's length and an unfinished record's, wherever they stand, also where nothing
/// would come back. Finished records and DNAMEs refuse nothing.
#[test]
fn every_pair_of_a_referrer_and_a_record_of_the_name() {
    let mut sides = Sides::new();
    for referrer in 1..=128 {
        for own in 0..=128 {
            let (refers, record) = (a6("r", referrer, "::", "x"), a6("x", own, "::", "nobody"));
            let expected = if own > referrer { 9 } else { 0 };
            for table in [[refers, record], [record, refers]] {
                assert_eq!(sides.within(&table.concat(), &name("x"), 8), expected, "{referrer} and {own}");
            }
        }
    }
    let long = a6("x", 128, "::", "nobody");
    for other in [dname_record(&name("r"), &name("x")), a6("r", 0, "::", ""), a6("r", 1, "::", "y")] {
        assert_eq!(sides.within(&[other, long].concat(), &name("x"), 8), 0);
    }
    // The name's own records are referrers, to themselves and to each other.
    assert_eq!(sides.within(&a6("x", 48, "::", "x"), &name("x"), 8), 0);
    assert_eq!(sides.within(&[a6("x", 48, "::", "x"), a6("x", 48, "::1", "x")].concat(), &name("x"), 8), 0);
    for table in [[a6("x", 48, "::", "x"), a6("x", 49, "::", "p")], [a6("x", 49, "::", "p"), a6("x", 48, "::", "x")]] {
        assert_eq!(sides.within(&table.concat(), &name("x"), 8), 9);
    }
}

#[test]
fn a_name_with_nothing_unfinished_gives_a_copy_or_7() {
    let mut sides = Sides::new();
    let table = realistic().table;
    for owner in ["nobody", "", "IP6.UPSTREAM-3.NET"] {
        assert_eq!(sides.collapsed(&table, &name(owner)), table, "{owner}");
        assert_eq!(sides.within(&table, &name(owner), MOST - 1), 7, "{owner}");
        assert_eq!(sides.within(&table, &name(owner), 0), 7, "{owner}");
    }
    assert_eq!(sides.within(&[], &name("x"), 0), 0);
    assert_eq!(sides.shown(), []);
}

/// The given name need not be in standard form, and its letters may be in either case.
#[test]
fn any_spelling_of_a_name_is_collapsed() {
    let mut sides = Sides::new();
    let mut random = Random::new(52);
    let owner = text::name(r"\[xABCDEF12/32].h.\[xF0/5].a");
    let table = [a6_record(&owner, 64, 7, &name("p")), a6("p", 0, "2001:db8::", "")].concat();
    let expected = sides.collapsed(&table, &owner);
    assert_eq!(expected[2], 0);
    for _ in 0..200 {
        let spelling = names::respelt(&mut random, &owner);
        assert_eq!(sides.collapsed(&table, &spelling), expected, "{spelling:02x?}");
    }
}

// Letters of either case (T-03).

/// Records of x, of its targets and of others, each in its own letters: a record that takes a place has the owner of the
/// record that was there and the target of the one that it is made of, both as they are stored.
#[test]
fn owners_and_targets_are_kept_as_they_are_stored() {
    let mut sides = Sides::new();
    let table = [
        a6("X.One", 64, "::1", "p.TWO"),
        a6("x.oNE", 0, "::9", ""),
        a6("P.two", 32, "0:0:2::", "Q.Three"),
        a6("x.one", 48, "::3", "Q.three"),
        a6("p.Two", 64, "::", "X.ONE"),
        dname_record(&name("x.ONE"), &name("P.TWO")),
        a6("q.THREE", 0, "2001:db8::", ""),
        a6("P.TWO", 65, "::", "q.three"),
        a6("X.ONE", 64, "::4", "nobody"),
    ];
    let expected = [
        a6("X.One", 32, "0:0:2::1", "Q.Three"),
        a6("X.One", 64, "::1", "X.ONE"),
        table[1],
        table[2],
        a6("x.one", 0, "2001:db8::3", ""),
        table[4],
        table[5],
        table[6],
        table[7],
    ];
    for spelling in ["x.one", "X.ONE", "X.One", "x.OnE"] {
        assert_eq!(sides.collapsed(&table.concat(), &name(spelling)), expected.concat(), "{spelling}");
    }
}

/// A record goes or stays by its target's letters in any case, but not by octets that are no letters.
#[test]
fn records_are_continued_by_the_owners_of_their_targets_in_any_letters() {
    let mut sides = Sides::new();
    for (target, owner, records) in [
        ("p.a", "P.A", 2),
        ("Z", "z", 2),
        ("@", "`", 1),
        ("[", "{", 1),
        (r"\193", r"\225", 1),
        (r"\[x41/8].a", r"\[x41/8].A", 2),
        (r"\[x41/8].a", r"\[x61/8].a", 1),
    ] {
        let made = a6_record(&text::name(owner), 0, 5 << 64, &[]);
        let table = [a6_record(&name("x"), 64, 7, &text::name(target)), made].concat();
        let collapsed = sides.collapsed(&table, &name("X"));
        assert_eq!(collapsed.len() / RECORD, records, "{target} and {owner}");
    }
}

/// 9 by a referrer that spells the name in another way than its records do, and the given name in a third.
#[test]
fn a_referrer_in_other_letters_refuses_the_name() {
    let mut sides = Sides::new();
    for (referrer, own) in [(1, 1), (1, 2), (47, 48), (48, 48), (49, 48), (127, 128), (128, 128)] {
        let expected = if own > referrer { 9 } else { 0 };
        for (target, owner, given) in [("xy", "XY", "Xy"), ("XY", "xy", "xy"), ("xY", "Xy", "xY"), ("Xy", "Xy", "XY")] {
            let (refers, record) = (a6("r", referrer, "::", target), a6(owner, own, "::", "nobody"));
            for table in [[refers, record], [record, refers]] {
                let number = sides.within(&table.concat(), &name(given), 8);
                assert_eq!(number, expected, "{target} {referrer}, {owner} {own}, {given}");
            }
        }
        // Bits that look like the letters of the target refuse nothing.
        let (target, owner) = (text::name(r"\[x41/8].x"), text::name(r"\[x61/8].x"));
        let table = [a6_record(&name("r"), referrer, 0, &target), a6_record(&owner, own, 0, &name("nobody"))];
        assert_eq!(sides.within(&table.concat(), &owner, 8), 0);
    }
    let mut random = Random::new(59);
    for _ in 0..100 {
        let table = plan::in_either_case(&mut random, &examples::ignored());
        assert_eq!(sides.within(&table, &names::in_either_case(&mut random, &name("p.a")), MOST), 9);
        assert_eq!(sides.within(&table, &names::in_either_case(&mut random, &name("h.a")), MOST), 0);
    }
}

/// Every name of the realistic plan, owners and targets respelt at random, and the plan of the benchmark in which every
/// second name is: the same number, and the same table but for spelling.
#[test]
fn the_realistic_plan_respelt_is_collapsed_alike() {
    let mut sides = Sides::new();
    let mut random = Random::new(60);
    let plan = realistic();
    for table in [plan.respelt().table, plan::in_either_case(&mut random, &plan.table)] {
        let all = Plan::new(&table);
        for (at, owner) in plan.carriers.iter().chain(&plan.upstreams).chain(&plan.hosts).chain(&plan.sites).enumerate()
        {
            let number = sides.within(&plan.table, owner, MOST);
            let collapsed = sides.shown().to_vec();
            let given = names::in_either_case(&mut random, owner);
            assert_eq!(sides.within(&table, &given, MOST), number, "{given:02x?}");
            if number == 0 && at < 60 {
                assert!(same(sides.shown(), &collapsed), "{given:02x?}");
                assert!(sides.shown() == all.fold(&whole(&given).expect("a name")), "{given:02x?}");
            }
        }
    }
}

// Room, and 1,024 records.

/// A table of `rest` records that stay, `own` unfinished ones of x, and `others` that take the place of each.
fn fanned(rest: usize, own: usize, others: usize) -> Vec<u8> {
    let stay = (0..rest).map(|index| a6_record(&name("o"), 0, index as u128, &[]));
    let go = (0..own).map(|index| a6_record(&name("x"), 64, index as u128, &name("p")));
    let come = (0..others).map(|index| a6_record(&name("p"), 0, (index as u128) << 64, &[]));
    stay.chain(go).chain(come).flatten().collect()
}

#[test]
fn results_of_1024_records_are_taken_and_of_1025_refused() {
    let mut sides = Sides::new();
    let shapes = [
        (1_022, 1, 1),
        (1_020, 1, 2),
        (1_021, 1, 2),
        (974, 1, 25),
        (975, 1, 25),
        (0, 1, 512),
        (1, 1, 512),
        (0, 1, 1_023),
        (1_023, 1, 0),
        (1_000, 24, 0),
        (1, 32, 31),
        (2, 32, 31),
        (0, 32, 32),
        (0, 512, 512),
        (0, 1_023, 1),
    ];
    let mut met = [0; 2];
    for (rest, own, others) in shapes {
        let table = fanned(rest, own, others);
        assert!(table.len() <= MOST * RECORD);
        let records = rest + others + own * others;
        met[(records > MOST) as usize] += 1;
        for room in [records, records + 1, records.saturating_sub(1), records / 2, 0, MOST - 1, MOST, MOST + 1, 1_100] {
            if room <= 1_200 {
                let expected = if records > room || records > MOST { 7 } else { 0 };
                assert_eq!(sides.within(&table, &name("x"), room), expected, "{rest}, {own}, {others}: room {room}");
            }
        }
    }
    assert_eq!(met, [8, 7]);
    // A thousand times a thousand.
    let loops = make::one_name(MOST, 0);
    assert_eq!(sides.within(&loops.table, &loops.names[0], 1_200), 7);
}

// The numbers and their order.

#[test]
fn the_first_number_that_is_earned_is_given() {
    let mut sides = Sides::new();
    let names =
        [(name("p.a"), 0, 9), (name("h.a"), 0, 0), (vec![], 4, 0), (vec![1, b'h', 0, 0], 4, 0), (vec![0xc0, 0], 4, 0)];
    for (table, of_table) in &plan::earning(&examples::ignored()) {
        for (name, of_name, of_lengths) in &names {
            for out in [0, 1, RECORD - 1, RECORD, 3 * RECORD, 4 * RECORD, 4 * RECORD + 1, 5 * RECORD] {
                for figures in [4, 0, 1, 2, 3, 5] {
                    let of_output = if out % RECORD != 0 || figures != 4 { 5 } else { 0 };
                    let of_room = if out < 4 * RECORD { 7 } else { 0 };
                    let earned = [*of_table, *of_name, of_output, *of_lengths, of_room];
                    let first = earned.into_iter().find(|number| *number != 0).unwrap_or(0);
                    assert_eq!(sides.0.collapse(table, name, [out, figures]), first);
                }
            }
        }
    }
}

// Generated tables.

const GENERATED: usize = 200_000;

/// Library, reference and plain rules agree on every octet, and every number comes up: tables damaged and not, names
/// good and malformed, rooms exact, one less, none and more, outputs and figures of any length.
#[test]
fn generated_collapses_agree_octet_for_octet() {
    let mut sides = Sides::new();
    let mut random = Random::new(53);
    let (mut made, mut tangle) = (Name::new(), Tangle::default());
    let mut met = Met::default();
    let (mut folded, mut cases) = (0, 0);
    while cases < GENERATED {
        make::either(&mut random, &mut made, 3, [9, 9], &mut tangle);
        let Tangle { table, names } = &mut tangle;
        plan::spoil(&mut random, &mut made, table);
        let mut name = names[random.below(names.len())].clone();
        match random.below(16) {
            0 => {
                names::any(&mut random, &mut made);
                name.clone_from(&made.octets);
            }
            1..=3 => name = names::respelt(&mut random, &name),
            _ => {}
        }
        // As many records as the rule makes, and so on.
        let records = match whole(&name) {
            Some(units) if check(table).0 == 0 => Plan::new(table).fold(&units).len() / RECORD,
            _ => 3,
        };
        let mut rooms = vec![records];
        rooms.extend(match random.below(4) {
            0 => Some(records.saturating_sub(1)),
            1 => Some(0),
            2 => Some(records + random.between(1, 3)),
            _ => None,
        });
        for room in rooms {
            let out = if random.once_in(16) { random.below(3 * RECORD) } else { room * RECORD };
            let figures = if random.once_in(20) { random.below(7) } else { FIGURES };
            let number = sides.0.collapse(table, &name, [out, figures]);
            met.count(number);
            assert_eq!(sides.0.answer(number), plain::collapse(table, &name, out, figures), "case {cases}");
            folded += (number == 0 && sides.shown() != table) as usize;
            cases += 1;
        }
    }
    met.are("collapse", &[0, 1, 2, 3, 4, 5, 7, 9], GENERATED / 100);
    println!("{folded} changed their tables");
    assert!(folded > GENERATED / 5);
}

/// The address sets of these names.
fn address_sets(table: &[u8], names: &[Vec<Unit>]) -> Vec<BTreeSet<u128>> {
    let graph = Graph::new(table);
    names.iter().map(|name| graph.addresses(name)).collect()
}

/// Lists of collapses in each half.
const LISTS: usize = 100_000;

#[test]
fn lists_of_collapses_keep_the_addresses_of_every_name() {
    lists(54);
}

#[test]
fn other_lists_of_collapses_keep_the_addresses_of_every_name() {
    lists(55);
}

/// Demand 3 on generated tables: lists of up to 20 calls with any names and outputs, the table in hand in order
/// throughout, every call as the plain rules say, and after each that changed the table every name with the addresses
/// of the first one. Counts how often test 9 was needed: the fold that it refused would have changed some addresses.
fn lists(seed: u64) {
    let mut sides = Sides::new();
    let mut random = Random::new(seed);
    let (mut made, mut tangle) = (Name::new(), Tangle::default());
    let mut met = Met::default();
    let (mut changed, mut needed, mut lost) = (0, 0, 0);
    for list in 0..LISTS {
        make::either(&mut random, &mut made, 4, [7, 8], &mut tangle);
        let mut table = tangle.table.clone();
        let mut names = Graph::new(&table).names().to_vec();
        names.push(whole(&name("nobody.at.all")).expect("a name"));
        let first = address_sets(&table, &names);
        let calls = if random.once_in(12) { random.between(5, 20) } else { random.between(0, 4) };
        for _ in 0..calls {
            let mut given = tangle.names[random.below(tangle.names.len())].clone();
            match random.below(24) {
                0 => {
                    names::any(&mut random, &mut made);
                    given.clone_from(&made.octets);
                }
                1 | 2 => given = names::respelt(&mut random, &given),
                _ => {}
            }
            let out = match random.below(16) {
                0 => random.below(20 * RECORD),
                1 | 2 => random.below(12) * RECORD,
                _ => 40 * RECORD,
            };
            let number = sides.number(&table, &given, out);
            met.count(number);
            let Some(units) = whole(&given) else {
                assert_eq!(number, 4, "list {list}");
                continue;
            };
            if !out.is_multiple_of(RECORD) {
                assert_eq!(number, 5, "list {list}");
                continue;
            }
            let plan = Plan::new(&table);
            assert_eq!(number == 9, plan.is_reviving(&units), "list {list}");
            let folded = plan.fold(&units);
            match number {
                9 => needed += (address_sets(&folded, &names) != first) as usize,
                7 => assert!(folded.len() > out, "list {list}"),
                _ => {
                    assert_eq!(number, 0, "list {list}");
                    assert!(sides.shown() == folded, "list {list}");
                    if folded != table {
                        assert_eq!(check(&folded).0, 0, "list {list}");
                        assert_eq!(address_sets(&folded, &names), first, "list {list}");
                        changed += 1;
                        lost += !Plan::new(&folded).owns(&units) as usize;
                        table = folded;
                    }
                }
            }
        }
    }
    met.are("lists", &[0, 4, 5, 7, 9], LISTS / 50);
    println!("{changed} changed the table, {needed} times 9 was needed, {lost} names lost all records");
    assert!(changed > LISTS / 2 && lost > LISTS / 100);
    assert!(needed * 5 > met.times(9), "9 was needed {needed} times");
}

/// Calls in lists of collapses by tables that are respelt.
const RESPELT: usize = 100_000;

/// Whether a lookup has these addresses; None where its work is too much.
fn looks_up(table: &[u8], name: &[u8], addresses: &BTreeSet<u128>) -> Option<bool> {
    const ROOM: usize = 256;
    let (mut out, mut ttls, mut figures) = ([0; 16 * ROOM], [0; ROOM], [0; FIGURES]);
    match ffi::lookup(table, name, 2_000, &mut out, &mut ttls, &mut figures) {
        0 => {
            let (found, _) = out.as_chunks();
            let found = found[..figures[0] as usize].iter().map(|octets| u128::from_be_bytes(*octets));
            Some(found.eq(addresses.iter().copied()))
        }
        number => {
            assert!(number == 6 || number == 7, "{number}");
            None
        }
    }
}

/// Demand 3 read with letters of either case. A list of collapses goes by a table and by the same table respelt, each
/// call with the name in letters of its own: the numbers are the same, and the tables in hand are the same but for
/// spelling and as the plain rules have them. After the list, refused calls included, every name has in every spelling
/// the addresses of the first table.
#[test]
fn lists_of_collapses_by_respelt_tables_keep_the_addresses_of_every_name_in_every_spelling() {
    let mut sides = Sides::new();
    let mut random = Random::new(64);
    let (mut made, mut tangle) = (Name::new(), Tangle::default());
    let mut met = Met::default();
    let (mut lists, mut calls, mut changed, mut looked_up) = (0, 0, 0, 0);
    while calls < RESPELT {
        make::either(&mut random, &mut made, 4, [7, 8], &mut tangle);
        let mut table = tangle.table.clone();
        let mut respelt = plan::in_either_case(&mut random, &table);
        let graph = Graph::new(&table);
        let first: Vec<(Vec<u8>, BTreeSet<u128>)> =
            graph.names().iter().map(|units| (encode(units), graph.addresses(units))).collect();
        for _ in 0..random.between(1, 5) {
            let given = &tangle.names[random.below(tangle.names.len())];
            let out = if random.once_in(8) { random.below(12) * RECORD } else { 40 * RECORD };
            let number = sides.number(&table, &names::respelt(&mut random, given), out);
            let collapsed = sides.shown().to_vec();
            let given = names::respelt(&mut random, given);
            assert_eq!(sides.number(&respelt, &given, out), number, "list {lists}");
            assert_eq!(sides.0.answer(number), plain::collapse(&respelt, &given, out, FIGURES), "list {lists}");
            met.count(number);
            calls += 1;
            if number == 0 {
                assert!(same(sides.shown(), &collapsed), "list {lists}");
                changed += (collapsed != table) as usize;
                table = collapsed;
                respelt = sides.shown().to_vec();
            }
        }
        let last = Graph::new(&respelt);
        for (name, addresses) in &first {
            let spelling = names::respelt(&mut random, name);
            let units = whole(&spelling).expect("a name");
            assert_eq!(last.addresses(&units), *addresses, "list {lists}, {spelling:02x?}");
            let same = looks_up(&respelt, &spelling, addresses);
            assert_ne!(same, Some(false), "list {lists}, {spelling:02x?}");
            looked_up += same.is_some() as usize;
        }
        lists += 1;
    }
    met.are("collapses of respelt tables", &[0, 7, 9], RESPELT / 50);
    println!("{lists} lists, {changed} of {calls} calls changed the table, {looked_up} names looked up after them");
    assert!(changed > RESPELT / 5 && looked_up > RESPELT / 2);
}

/// Large tables: every name of the realistic one collapsed, and a list of collapses that ends with none unfinished.
#[test]
fn large_tables_agree() {
    let mut sides = Sides::new();
    let plan = realistic();
    for name in plan.hosts.iter().chain(&plan.sites).chain(&plan.upstreams) {
        let number = sides.within(&plan.table, name, MOST);
        assert!(number == 0 || number == 7, "{number}");
    }
    let all = Plan::new(&plan.table);
    for name in &plan.carriers {
        assert_eq!(sides.within(&plan.table, name, MOST), 0);
        assert_eq!(sides.shown(), all.fold(&whole(name).expect("a name")));
    }
    let mut table = plan.table.clone();
    let names: Vec<Vec<Unit>> = plan.hosts.iter().chain(&plan.carriers).filter_map(|name| whole(name)).collect();
    let first = address_sets(&table, &names);
    for name in plan.carriers.iter().chain(&plan.hosts[..5]) {
        if sides.within(&table, name, MOST) == 0 {
            table = sides.shown().to_vec();
        }
    }
    assert_eq!(address_sets(&table, &names), first);
    let mut random = Random::new(56);
    let (mut made, mut tangle) = (Name::new(), Tangle::default());
    let mut met = Met::default();
    for _ in 0..400 {
        let most = random.pick(&[30, 60, 200, MOST]);
        make::tangle(&mut random, &mut made, most, &mut tangle);
        for name in &tangle.names {
            let room = random.pick(&[0, 100, MOST, MOST + 100]);
            met.count(sides.within(&tangle.table, name, room));
        }
    }
    met.are("collapse of large tables", &[0, 7, 9], 20);
}
