//! `a6plan_check` and `a6plan_owner` against the reference and the plain rules (01, The plan table; T-04).

use a6plan_tests::generate::names::Name;
use a6plan_tests::generate::plan::{
    self as make, a6_record, dname_record, name, put_ttl, record, with_ttls, A6, DNAME, LONGEST, OWNER, TARGET, TTL,
};
use a6plan_tests::generate::Random;
use a6plan_tests::lent;
use a6plan_tests::met::Met;
use a6plan_tests::plain::plan::{self as plain, broken, repeated, Field, Place};
use a6plan_tests::reference::plan::{MOST, RECORD};

/// The library's number for a table and the place of the fault, which are the reference's.
fn checked(table: &[u8]) -> (u32, Place) {
    let mut sides = lent::Sides::new(0);
    (sides.check(table, 2), sides.place())
}

/// The number alone.
fn check(table: &[u8]) -> u32 {
    checked(table).0
}

/// What a table earns whose first fault, if it has one, is this field of this record.
fn earned(index: usize, fault: Option<Field>) -> (u32, Place) {
    fault.map_or((0, [0, 0]), |field| broken(index, field))
}

struct Sides(lent::Sides);

impl Sides {
    fn new() -> Sides {
        Sides(lent::Sides::new(0))
    }

    /// The library's number and figures, which are the reference's.
    fn owner(&mut self, table: &[u8], index: usize, figures: usize) -> (u32, Vec<u32>) {
        let number = self.0.owner(table, index, figures);
        (number, self.0.figures.shown().to_vec())
    }

    /// The part of the table that the library shows; None for the empty one.
    fn part<'a>(&mut self, table: &'a [u8], index: usize) -> Option<&'a [u8]> {
        let (number, figures) = self.owner(table, index, 2);
        assert_eq!(number, 0);
        if figures[1] == 0 {
            assert_eq!(figures[0], 0, "the empty part stands at 0");
            return None;
        }
        Some(&table[figures[0] as usize..][..figures[1] as usize])
    }
}

/// A name of one bit label under a.
fn bits(count: usize) -> Vec<u8> {
    let mut name = Name::new();
    name.bits(count, &[0xff; 32]);
    name.label(b"a");
    name.end();
    name.octets
}

/// Good records of every kind: prefix lengths at the edges, names short and long, with bit labels, the root.
fn good_records() -> Vec<[u8; RECORD]> {
    let host = name("h.site.example");
    let prefix = name("ip6.site.example");
    let (long, _) = make::full_name(63, b'l');
    let (many, _) = make::full_name(1, b'm');
    let root = [0];
    vec![
        a6_record(&host, 0, u128::MAX, &[]),
        a6_record(&host, 1, u128::MAX, &prefix),
        a6_record(&host, 7, 0, &root),
        a6_record(&root, 8, u128::MAX, &bits(9)),
        a6_record(&long, 64, 7, &many),
        a6_record(&bits(255), 121, u128::MAX, &prefix),
        a6_record(&many, 127, 1, &long),
        a6_record(&host, 128, 0, &bits(256)),
        dname_record(&bits(48), &prefix),
        dname_record(&root, &long),
        dname_record(&many, &root),
        dname_record(&long, &bits(1)),
    ]
}

/// A table of A6 records that are all in order.
fn plain_table(records: usize) -> Vec<u8> {
    let mut table = Vec::with_capacity(records * RECORD);
    for index in 0..records {
        let owner = name(&format!("h{index}.a"));
        let next =
            a6_record(&owner, 64 * (index % 3 / 2) as u8, index as u128, if index % 3 == 2 { &[0] } else { &[] });
        table.extend(next);
    }
    table
}

fn put(table: &mut [u8], index: usize, record: &[u8; RECORD]) {
    table[index * RECORD..(index + 1) * RECORD].copy_from_slice(record);
}

// 1: the length of the table.

#[test]
fn a_table_of_no_records_is_in_order() {
    assert_eq!(check(&[]), 0);
}

#[test]
fn tables_of_1_to_1024_records_are_in_order_and_more_are_refused() {
    let table = plain_table(MOST + 2);
    for records in [1, 2, 3, 100, 1_022, 1_023, 1_024] {
        assert_eq!(check(&table[..records * RECORD]), 0, "{records} records");
    }
    for records in [1_025, 1_026] {
        assert_eq!(check(&table[..records * RECORD]), 1, "{records} records");
    }
}

#[test]
fn every_length_that_is_no_multiple_is_refused() {
    let table = plain_table(MOST + 1);
    for length in (0..=3 * RECORD).chain((MOST - 1) * RECORD..=(MOST + 1) * RECORD) {
        let expected = if length % RECORD == 0 && length <= MOST * RECORD { 0 } else { 1 };
        assert_eq!(check(&table[..length]), expected, "{length} octets");
    }
}

/// 1 comes before 2, and 2 before 3, wherever the records stand.
#[test]
fn a_bad_length_comes_first_then_a_bad_record_then_shared_owners() {
    let shared = dname_record(&name("s.a"), &name("t.a"));
    let mut bad = shared;
    bad[3] = 1;
    for order in [[0, 1, 2], [0, 2, 1], [1, 0, 2], [2, 0, 1], [1, 2, 0], [2, 1, 0]] {
        let of = [&bad, &shared, &shared];
        let table = order.map(|at| of[at].to_vec()).concat();
        assert_eq!(check(&table), 2);
        assert_eq!(check(&table[..3 * RECORD - 1]), 1);
        assert_eq!(check(&[&table[..], &[0]].concat()), 1);
    }
    assert_eq!(check(&[shared, shared].concat()), 3);
    assert_eq!(check(&[bad, shared].concat()[1..]), 1);
    assert_eq!(check(&bad.repeat(1_025)), 1);
    assert_eq!(check(&shared.repeat(1_025)), 1);
    assert_eq!(check(&shared.repeat(1_024)), 3);
}

// 2: the layout of a record.

#[test]
fn good_records_keep_the_layout() {
    for good in good_records() {
        assert_eq!(check(&good), 0, "{good:02x?}");
        assert_eq!(plain::fault(&good), None);
    }
    assert_eq!(check(&good_records().concat()), 0);
}

/// Each octet of each good record is set to each of the other 255 values.
#[test]
fn every_octet_of_a_record_set_to_every_other_value() {
    for good in good_records() {
        let mut record = good;
        let mut fields = [0; 7];
        for at in 0..RECORD {
            for octet in 0..=255 {
                record[at] = octet;
                let said = checked(&record);
                if octet % 16 == at as u8 % 16 || octet < 4 {
                    let fault = plain::fault(&record);
                    assert_eq!(said, earned(0, fault), "octet {at} set to {octet}");
                    if let Some(field) = fault {
                        fields[field as usize] += 1;
                    }
                }
            }
            record[at] = good[at];
        }
        for field in [Field::Type, Field::Length, Field::Zero, Field::Owner, Field::Target, Field::Ttl] {
            assert!(fields[field as usize] > 0, "{field:?} is at fault somewhere");
        }
    }
}

#[test]
fn every_octet_of_a_record_damaged_among_others() {
    let table = [&plain_table(2)[..], &good_records().concat(), &plain_table(1)].concat();
    let records = table.len() / RECORD;
    for index in 0..records {
        let mut damaged = table.clone();
        for at in index * RECORD..(index + 1) * RECORD {
            for octet in [0, 1, 0x41, 0x80, 0xff, table[at] ^ 1] {
                damaged[at] = octet;
                let fault = plain::fault(&damaged[index * RECORD..(index + 1) * RECORD]);
                let said = checked(&damaged);
                if fault.is_some() || said.0 == 2 {
                    assert_eq!(said, earned(index, fault), "octet {at} set to {octet}");
                }
            }
            damaged[at] = table[at];
        }
    }
}

#[test]
fn every_type_but_a6_and_dname_is_refused() {
    let mut a6 = a6_record(&name("a"), 0, 0, &[]);
    let mut dname = dname_record(&name("a"), &name("b"));
    for kind in 0..=u16::MAX {
        a6[..2].copy_from_slice(&kind.to_be_bytes());
        dname[..2].copy_from_slice(&kind.to_be_bytes());
        assert_eq!(check(&a6), if kind == 38 { 0 } else { 2 }, "type {kind}");
        assert_eq!(check(&dname), if kind == 39 { 0 } else { 2 }, "type {kind}");
        if kind != 38 && kind != 39 {
            assert_eq!(checked(&dname), broken(0, Field::Type), "type {kind}");
        }
    }
}

#[test]
fn every_prefix_length_with_every_address_bit() {
    for length in 0..=255_u8 {
        for bit in 0..=128_u32 {
            let address = 1_u128.checked_shl(127_u32.wrapping_sub(bit)).unwrap_or(0);
            let target: &[u8] = if length == 0 { &[] } else { &[0] };
            let clear = bit == 128 || bit >= length as u32;
            let fault = |long: bool, set: bool| match (long, set) {
                (true, _) => Some(Field::Length),
                (false, true) => Some(Field::Address),
                (false, false) => None,
            };
            let a6 = record(A6, length, address, &name("a"), target);
            assert_eq!(checked(&a6), earned(0, fault(length > 128, !clear)), "A6 {length}, bit {bit}");
            let dname = record(DNAME, length, address, &name("a"), &[0]);
            assert_eq!(checked(&dname), earned(0, fault(length > 0, bit < 128)), "DNAME {length}, bit {bit}");
        }
    }
}

#[test]
fn a_target_is_there_exactly_when_it_should_be() {
    let owner = name("a");
    let root = [0];
    assert_eq!(check(&record(A6, 0, 7, &owner, &[])), 0);
    assert_eq!(check(&record(A6, 0, 7, &owner, &root)), 2, "the root is a target");
    assert_eq!(check(&record(A6, 0, 7, &owner, &name("t.a"))), 2);
    for length in [1, 64, 128] {
        assert_eq!(check(&record(A6, length, 0, &owner, &[])), 2);
        assert_eq!(check(&record(A6, length, 0, &owner, &root)), 0);
        assert_eq!(check(&record(A6, length, 0, &owner, &name("t.a"))), 0);
    }
    assert_eq!(check(&record(DNAME, 0, 0, &owner, &[])), 2);
    assert_eq!(check(&record(DNAME, 0, 0, &owner, &root)), 0);
    for (kind, length, target) in [(A6, 0, &[][..]), (A6, 64, &root), (DNAME, 0, &root)] {
        assert_eq!(check(&record(kind, length, 0, &[], target)), 2, "no owner");
        assert_eq!(check(&record(kind, length, 0, &root, target)), 0, "the root as owner");
    }
}

/// At prefix length 0 every octet of an A6 record's target slot is zero.
#[test]
fn every_octet_of_an_unwanted_target_slot_is_refused_when_set() {
    for at in TARGET..TTL {
        for octet in [1, 0x40, 0xff] {
            let mut record = a6_record(&name("a"), 0, 7, &[]);
            record[at] = octet;
            assert_eq!(checked(&record), broken(0, Field::Target), "octet {at}");
        }
    }
}

/// Of every kind of record, alone and among others, TTLs up to the largest are taken and larger ones refused, though
/// all else is in order.
#[test]
fn ttls_up_to_the_largest_are_taken_and_larger_ones_refused() {
    let all = good_records().concat();
    let ttls = [0, 1, 255, 256, 65_536, 1 << 24, LONGEST - 1, LONGEST, LONGEST + 1, 3 << 30, u32::MAX - 1, u32::MAX];
    for (index, good) in good_records().iter().enumerate() {
        for ttl in ttls {
            let fault = (ttl > LONGEST).then_some(Field::Ttl);
            let record = with_ttls(good.to_vec(), &[ttl]);
            assert_eq!(checked(&record), earned(0, fault), "TTL {ttl} alone");
            assert_eq!(plain::fault(&record), fault, "TTL {ttl}");
            let mut table = all.clone();
            put_ttl(&mut table[index * RECORD..(index + 1) * RECORD], ttl);
            assert_eq!(checked(&table), earned(index, fault), "TTL {ttl} of record {index}");
        }
    }
}

/// A TTL too large is the last fault that a record can have, and is 2 like the others: after 1 and before 3.
#[test]
fn a_ttl_too_large_is_found_after_the_other_fields_and_before_shared_owners() {
    let shared = dname_record(&name("s.a"), &name("t.a"));
    let lasting = with_ttls(shared.to_vec(), &[u32::MAX]);
    for table in [[&lasting[..], &shared], [&shared, &lasting], [&lasting, &lasting]] {
        let table = table.concat();
        assert_eq!(check(&table), 2);
        assert_eq!(check(&table[1..]), 1);
    }
    let fields = [Field::Type, Field::Length, Field::Zero, Field::Address, Field::Owner, Field::Target];
    for (at, field) in [0, 2, 3, OWNER - 1, OWNER, TARGET].into_iter().zip(fields) {
        let mut record = lasting.clone();
        record[at] ^= 1;
        assert_eq!(checked(&record), broken(0, field), "{field:?}");
        assert_eq!(plain::fault(&record), Some(field));
    }
}

/// Where the slots of a record begin, and their fields.
const SLOTS: [(usize, Field); 2] = [(OWNER, Field::Owner), (TARGET, Field::Target)];

#[test]
fn every_length_octet_of_a_slot_but_the_right_one_is_refused() {
    for good in good_records() {
        for (slot, field) in SLOTS {
            for length in 0..=255 {
                let mut record = good;
                record[slot] = length;
                let fault = (length != good[slot]).then_some(field);
                assert_eq!(checked(&record), earned(0, fault), "length {length} at {slot}");
            }
        }
    }
}

#[test]
fn every_octet_of_the_fill_is_refused_when_set() {
    for good in good_records() {
        for (slot, field) in SLOTS {
            for at in slot + 1 + good[slot] as usize..slot + 256 {
                for octet in [1, 0x80, 0xff] {
                    let mut record = good;
                    record[at] = octet;
                    assert_eq!(checked(&record), broken(0, field), "octet {at}");
                }
            }
        }
    }
}

#[test]
fn names_malformed_or_not_in_standard_form_are_refused() {
    let (full, _) = make::full_name(63, b'f');
    let cases: Vec<(&str, Vec<u8>)> = vec![
        ("no zero octet", vec![1, b'a']),
        ("a pointer", vec![0xc0, 0]),
        ("a bad first octet", vec![64, 0]),
        ("a label beyond the name", vec![3, b'a', 0]),
        ("a bit label without its count", vec![65]),
        ("a bit label beyond the name", vec![65, 9, 0x80, 0]),
        ("unused bits set", vec![65, 1, 0x81, 0]),
        ("two bit labels side by side", vec![65, 1, 0x80, 65, 1, 0x80, 0]),
        ("two bit labels side by side further up", vec![1, b'a', 65, 1, 0x80, 65, 8, 0x80, 1, b'b', 0]),
        ("257 bits side by side", [&[65, 0][..], &[0xff; 32], &[65, 1, 0x80, 0]].concat()),
        ("octets after the zero octet", vec![1, b'a', 0, 0]),
        ("a name after the name", vec![0, 1, b'a', 0]),
        ("255 octets without a zero octet", [&full[..254], &[1]].concat()),
    ];
    for (what, bad) in cases {
        let good = name("a");
        let [owner, target] = [Field::Owner, Field::Target].map(|field| broken(0, field));
        assert_eq!(checked(&a6_record(&bad, 0, 0, &[])), owner, "{what}: owner of A6 0");
        assert_eq!(checked(&a6_record(&bad, 64, 0, &good)), owner, "{what}: owner of A6 64");
        assert_eq!(checked(&a6_record(&good, 64, 0, &bad)), target, "{what}: target of A6 64");
        assert_eq!(checked(&dname_record(&bad, &good)), owner, "{what}: owner of DNAME");
        assert_eq!(checked(&dname_record(&good, &bad)), target, "{what}: target of DNAME");
    }
}

#[test]
fn one_bad_record_anywhere_in_a_full_table_is_found() {
    for mut table in [plain_table(MOST), make::realistic().table, make::worst(63), make::worst(1)] {
        assert_eq!(table.len(), MOST * RECORD);
        assert_eq!(check(&table), 0);
        for index in [0, 1, 2, 255, 256, 510, 511, 512, 1_021, 1_022, 1_023] {
            for (at, field) in [
                (0, Field::Type),
                (1, Field::Type),
                (2, Field::Length),
                (3, Field::Zero),
                (OWNER, Field::Owner),
                (OWNER + 1, Field::Owner),
                (TARGET - 1, Field::Owner),
                (TARGET, Field::Target),
                (TTL - 1, Field::Target),
                (TTL, Field::Ttl),
            ] {
                let at = index * RECORD + at;
                let good = table[at];
                table[at] ^= 0xc1;
                assert_eq!(checked(&table), broken(index, field), "octet {at}");
                table[at] = good;
            }
        }
        assert_eq!(check(&table), 0);
    }
}

// 3: owners of DNAMEs.

const PLACES: [(usize, usize); 9] =
    [(0, 1), (0, 1_023), (1, 2), (0, 512), (511, 512), (255, 256), (1_022, 1_023), (7, 1_000), (1_021, 1_023)];

#[test]
fn two_dnames_with_one_owner_are_refused_wherever_they_stand() {
    let dname = dname_record(&name("shared.owner.a"), &name("t.a"));
    for table in [plain_table(MOST), make::realistic().table, make::worst(63), make::worst(1)] {
        for (one, other) in PLACES {
            let mut table = table.clone();
            put(&mut table, one, &dname);
            assert_eq!(check(&table), 0, "one at {one}");
            let mut another = dname_record(&name("shared.owner.a"), &name("another.target"));
            put(&mut table, other, &another);
            assert_eq!(checked(&table), repeated(other), "at {one} and {other}");
            another[OWNER + 2] ^= 1;
            put(&mut table, other, &another);
            assert_eq!(check(&table), 0, "at {one} and nearly at {other}");
        }
    }
}

/// The worst table with the owner of one record put in another: they stand among a thousand nearly equal ones.
#[test]
fn one_shared_owner_among_many_nearly_equal_ones_is_found() {
    for longest in [1, 2, 31, 63] {
        let mut table = make::worst(longest);
        assert_eq!(check(&table), 0);
        for (one, other) in PLACES {
            let good: [u8; RECORD] = table[other * RECORD..(other + 1) * RECORD].try_into().unwrap();
            let shared: [u8; RECORD] = table[one * RECORD..(one + 1) * RECORD].try_into().unwrap();
            put(&mut table, other, &shared);
            assert_eq!(checked(&table), repeated(other), "{one} and {other}, labels of {longest}");
            put(&mut table, other, &good);
        }
    }
}

#[test]
fn owners_that_differ_in_one_octet_at_any_place_are_not_shared() {
    for longest in [1, 5, 63] {
        let (owner, places) = make::full_name(longest, b'o');
        let one = dname_record(&owner, &name("t.a"));
        assert_eq!(check(&[one, one].concat()), 3);
        for place in places {
            for changed in [owner[place] ^ 1, owner[place] ^ 0x80, 0] {
                let mut other = owner.clone();
                other[place] = changed;
                let other = dname_record(&other, &name("t.a"));
                assert_eq!(check(&[one, other].concat()), 0, "octet {place}");
                assert_eq!(check(&[one, other, other].concat()), 3, "octet {place}");
            }
        }
    }
}

/// One name that begins or ends like another, and names that differ in where their labels end.
#[test]
fn owners_of_which_one_is_part_of_another_are_not_shared() {
    let mut table = Vec::new();
    for owner in ["", "a", "a.a", "a.a.a", "aa", "aa.a", "a.aa", "aaa", "b.a", "a.b"] {
        table.extend(dname_record(&name(owner), &name("t")));
    }
    for count in 1..=256 {
        table.extend(dname_record(&bits(count), &name("t")));
    }
    assert_eq!(check(&table), 0);
    for index in 0..table.len() / RECORD {
        let again: [u8; RECORD] = table[index * RECORD..(index + 1) * RECORD].try_into().unwrap();
        let last = table.len() / RECORD;
        assert_eq!(checked(&[&table[..], &again].concat()), repeated(last), "record {index} again");
    }
}

/// T-03, wherever the two records stand, and whatever stands between them.
#[test]
fn owners_in_letters_of_another_case_are_shared() {
    let one = dname_record(&name("shared.owner.a"), &name("t.a"));
    for table in [plain_table(MOST), make::realistic().table, make::worst(63), make::worst(1)] {
        for (first, second) in PLACES {
            for owner in ["SHARED.OWNER.A", "Shared.owner.a", "shared.owner.A", "sHARED.oWNER.a"] {
                let mut table = table.clone();
                put(&mut table, first, &one);
                put(&mut table, second, &dname_record(&name(owner), &name("another.target")));
                assert_eq!(checked(&table), repeated(second), "{owner} at {first} and {second}");
                table[second * RECORD + 1] = A6;
                table[second * RECORD + 2] = 64;
                assert_eq!(check(&table), 0, "{owner} of A6 at {second}");
            }
        }
    }
}

/// One letter at each place of a long owner; then an owner of the worst table again, all letters in either case.
#[test]
fn an_owner_in_letters_of_another_case_is_found_at_any_place() {
    for longest in [1, 5, 63] {
        let (owner, places) = make::full_name(longest, b'o');
        let one = dname_record(&owner, &name("t.a"));
        for place in places {
            for (octet, expected) in [(b'O', 3), (b'o', 3), (b'o' ^ 0x40, 0), (b'P', 0), (b'p', 0)] {
                let mut other = owner.clone();
                other[place] = octet;
                let other = dname_record(&other, &name("t.a"));
                assert_eq!(check(&[one, other].concat()), expected, "octet {place} is {octet:#04x}");
                assert_eq!(check(&[other, one].concat()), expected, "octet {place} is {octet:#04x}");
            }
        }
    }
    let mut random = Random::new(23);
    let table = make::worst(63);
    for index in [0, 1, 500, MOST - 2] {
        let mut table = make::in_either_case(&mut random, &table);
        assert_eq!(check(&table), 0);
        let again = make::in_either_case(&mut random, &table[index * RECORD..(index + 1) * RECORD]);
        put(&mut table, MOST - 1, again[..].try_into().expect("a record"));
        assert_eq!(checked(&table), repeated(MOST - 1), "record {index} again at the end");
    }
}

/// An A and an a among bits are two octets, and so is every pair of octets that differ in the bit of case alone.
#[test]
fn owners_whose_bits_look_like_letters_of_another_case_are_not_shared() {
    for at in 0..32 {
        for (one, other) in [(0x41, 0x61), (0x5a, 0x7a), (0x40, 0x60), (0, 0x20)] {
            let owners = [one, other].map(|octet| {
                let mut bits = [0x41; 32];
                bits[at] = octet;
                let mut owner = Name::new();
                owner.bits(256, &bits);
                owner.label(b"a");
                owner.end();
                dname_record(&owner.octets, &name("t"))
            });
            assert_eq!(check(&owners.concat()), 0, "octet {at}: {one:#04x} and {other:#04x}");
            assert_eq!(check(&[owners[0], owners[0]].concat()), 3, "octet {at}: {one:#04x}");
        }
    }
    // A thousand owners that differ in such bits alone.
    let table: Vec<u8> = (0..MOST)
        .flat_map(|number| {
            let mut owner = Name::new();
            owner.bits(80, &[0x41; 10]);
            for bit in 0..10 {
                owner.octets[2 + bit] |= ((number >> bit & 1) as u8) << 5;
            }
            owner.end();
            dname_record(&owner.octets, &name("t"))
        })
        .collect();
    assert_eq!(check(&table), 0);
    let mut shared = table.clone();
    shared.copy_within(..RECORD, (MOST - 1) * RECORD);
    assert_eq!(checked(&shared), repeated(MOST - 1));
}

#[test]
fn only_owners_of_dnames_must_differ() {
    let owner = name("o.a");
    let a6 = a6_record(&owner, 64, 7, &owner);
    let done = a6_record(&owner, 0, 7, &[]);
    let dname = dname_record(&owner, &name("t.a"));
    let itself = dname_record(&owner, &owner);
    assert_eq!(check(&[a6, a6, done, done].concat()), 0, "equal A6 records");
    let capitals = a6_record(&name("O.A"), 64, 7, &name("O.a"));
    assert_eq!(check(&[a6, capitals, dname, capitals].concat()), 0, "equal A6 records in other letters");
    assert_eq!(check(&[a6, dname].concat()), 0, "A6 and DNAME");
    assert_eq!(check(&[dname, done, a6].concat()), 0, "DNAME and A6");
    assert_eq!(check(&itself), 0, "a DNAME that targets its own owner");
    let other = dname_record(&name("p.a"), &name("t.a"));
    assert_eq!(check(&[dname, other].concat()), 0, "one target twice");
    let back = dname_record(&name("t.a"), &owner);
    assert_eq!(check(&[dname, back].concat()), 0, "owner and target of each other");
    assert_eq!(check(&[dname, a6, itself].concat()), 3, "two DNAMEs");
}

// The owner part.

/// Indices that are no record's, among them ones whose place is beyond what a number holds.
fn bad_indices(records: usize) -> Vec<usize> {
    let wrapping = usize::MAX / RECORD + 1;
    vec![records, records + 1, MOST, MOST + 1, wrapping, wrapping + 1, 1 << 31, 1 << 32, 1 << 62, 1 << 63, usize::MAX]
}

#[test]
fn the_owner_of_every_record_of_full_tables_is_shown() {
    let mut sides = Sides::new();
    for table in [plain_table(MOST), make::realistic().table, make::worst(63)] {
        for index in 0..MOST {
            let slot = index * RECORD + OWNER;
            let owner = &table[slot + 1..slot + 1 + table[slot] as usize];
            let part = sides.part(&table, index).expect("an owner");
            assert_eq!(part, owner, "record {index}");
            assert_eq!(part.as_ptr(), owner.as_ptr(), "record {index}");
        }
        for index in bad_indices(MOST) {
            assert_eq!(sides.part(&table, index), None, "index {index}");
        }
    }
}

#[test]
fn the_owner_of_every_kind_of_record_is_shown() {
    let mut sides = Sides::new();
    let table = good_records().concat();
    for (index, record) in good_records().iter().enumerate() {
        let part = sides.part(&table, index).expect("an owner");
        assert_eq!(part, &record[OWNER + 1..OWNER + 1 + record[OWNER] as usize]);
        assert_eq!(sides.part(record, 0), Some(part));
        assert_eq!(sides.part(record, 1), None);
    }
}

/// The owner part shows the letters as they are stored (T-03).
#[test]
fn owners_are_shown_in_their_stored_letters() {
    let mut sides = Sides::new();
    let mut random = Random::new(24);
    let table = make::in_either_case(&mut random, &make::realistic().table);
    let mut small = 0;
    for index in 0..MOST {
        let slot = index * RECORD + OWNER;
        let part = sides.part(&table, index).expect("an owner");
        assert_eq!(part, &table[slot + 1..slot + 1 + table[slot] as usize], "record {index}");
        small += part.iter().any(u8::is_ascii_lowercase) as usize;
    }
    assert!(small > MOST / 2);
}

#[test]
fn no_owner_is_shown_for_a_bad_index() {
    let mut sides = Sides::new();
    let table = plain_table(5);
    for records in 0..=5 {
        for index in bad_indices(records) {
            assert_eq!(sides.part(&table[..records * RECORD], index), None, "index {index} of {records}");
        }
    }
}

#[test]
fn no_owner_is_shown_of_a_table_that_earns_1_2_or_3() {
    let mut sides = Sides::new();
    let good = plain_table(3);
    let mut bad_last = good.clone();
    put_ttl(&mut bad_last[2 * RECORD..], LONGEST + 1);
    let shared = dname_record(&name("a"), &name("b"));
    let tables = [
        (good[..3 * RECORD - 1].to_vec(), 1),
        ([&good[..], &[0]].concat(), 1),
        (plain_table(MOST + 1), 1),
        (bad_last, 2),
        ([&good[..], &shared, &shared].concat(), 3),
    ];
    for (table, number) in tables {
        assert_eq!(check(&table), number);
        for index in [0, 1, 2, 3, 4, 5, MOST, usize::MAX] {
            assert_eq!(sides.part(&table, index), None, "index {index} of a table that earns {number}");
        }
    }
}

#[test]
fn figures_not_of_two_are_refused_by_the_owner_part() {
    let mut sides = Sides::new();
    let table = plain_table(2);
    for table in [&[][..], &table, &table[1..]] {
        for index in [0, 1, 2, usize::MAX] {
            for figures in [0, 1, 3, 4] {
                assert_eq!(sides.owner(table, index, figures), (5, vec![0; figures]));
            }
        }
    }
}

// Generated tables.

const GENERATED: usize = 250_000;

/// Library, reference and plain rules agree, for the check and for the owner part, and every answer comes up often.
#[test]
fn generated_tables_are_judged_alike() {
    let mut sides = Sides::new();
    let mut random = Random::new(21);
    let (mut made, mut table) = (Name::new(), Vec::new());
    let mut met = Met::default();
    let mut fields = [0; 7];
    for case in 0..GENERATED {
        make::any_table(&mut random, &mut made, &mut table);
        let (number, place) = checked(&table);
        met.count(number);
        assert_eq!((number, place), plain::check(&table), "case {case}");
        if number == 2 {
            fields[place[1] as usize] += 1;
        }
        if case % 4 == 0 {
            let records = table.len() / RECORD;
            for index in (0..records + 2).chain([usize::MAX - random.below(2_000)]) {
                let figures = if random.once_in(16) { random.below(5) } else { 2 };
                let shown = sides.owner(&table, index, figures);
                assert_eq!(shown, plain::owner(&table, index, figures), "case {case}, index {index}");
            }
        }
    }
    met.are("check", &[0, 1, 2, 3], GENERATED / 50);
    println!("fields at fault: {fields:?}");
    for (field, times) in fields.iter().enumerate() {
        assert!(*times > GENERATED / 100, "field {field} is at fault {times} times");
    }
}

/// Tables that are respelt.
const RESPELT: usize = 50_000;

/// A table respelt earns the same number at the same place, and its owners are shown as it spells them.
#[test]
fn generated_tables_respelt_are_judged_alike() {
    let mut sides = Sides::new();
    let mut random = Random::new(25);
    let (mut made, mut table) = (Name::new(), Vec::new());
    let mut met = Met::default();
    for case in 0..RESPELT {
        let records = random.between(1, 6);
        make::good_table(&mut random, &mut made, records, &mut table);
        let respelt = make::in_either_case(&mut random, &table);
        let said = checked(&respelt);
        let number = said.0;
        met.count(number);
        assert_eq!(said, checked(&table), "case {case}");
        assert_eq!(said, plain::check(&respelt), "case {case}");
        assert!(plain::same(&table, &respelt), "case {case}");
        let index = random.below(records);
        let slot = &respelt[index * RECORD + OWNER..];
        let owner = (number == 0).then(|| &slot[1..1 + slot[0] as usize]);
        assert_eq!(sides.part(&respelt, index), owner, "case {case}, index {index}");
    }
    met.are("check of respelt tables", &[0, 3], RESPELT / 10);
}

/// Tables of hundreds of records, in which DNAMEs share owners more often than not, and ones with few in common.
#[test]
fn generated_large_tables_are_judged_alike() {
    let mut random = Random::new(22);
    let (mut made, mut table) = (Name::new(), Vec::new());
    let mut met = Met::default();
    for _ in 0..300 {
        let records = random.pick(&[50, 200, 600, 1_023, 1_024, 1_025]);
        if random.once_in(2) {
            make::good_table(&mut random, &mut made, records, &mut table);
        } else {
            table = plain_table(records);
            for _ in 0..random.between(1, 40) {
                let index = random.below(records);
                put(&mut table, index, &make::good_record(&mut random, &mut made));
            }
        }
        if random.once_in(4) {
            make::damage_one(&mut random, &mut made, &mut table);
        }
        let said = checked(&table);
        assert_eq!(said, plain::check(&table));
        met.count(said.0);
    }
    met.are("check of large tables", &[0, 1, 2, 3], 5);
}

/// What the benchmarks stand on: the numbers of records that the full realistic table promises.
#[test]
fn the_realistic_table_is_what_it_says() {
    let plan = make::realistic();
    assert_eq!(plan.table.len(), MOST * RECORD);
    assert_eq!(plain::check(&plan.table).0, 0);
    let owners = |owner: &[u8]| {
        let owns = |record: &&[u8]| {
            record[1] == A6 && record[OWNER] as usize == owner.len() && record[OWNER + 1..].starts_with(owner)
        };
        plan.table.chunks(RECORD).filter(owns).count()
    };
    assert_eq!(plan.table.chunks(RECORD).filter(|record| record[1] == DNAME).count(), 60);
    assert_eq!(plan.sites.len(), 340);
    assert!(plan.sites.iter().all(|site| [2, 3].contains(&owners(site))));
    assert!(plan.hosts.iter().chain(&plan.upstreams).all(|name| owners(name) == 1));
    assert!(plan.carriers.iter().all(|carrier| owners(carrier) == 2));
    assert_eq!(plan.addresses.len(), 24);
}
