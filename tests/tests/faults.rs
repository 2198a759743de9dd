//! Which record of a table is at fault, and which of its fields (T-04): the place that `a6plan_check` gives, and that
//! lookup, reverse lookup and collapse hand on.

use a6plan_tests::generate::examples::{self, address};
use a6plan_tests::generate::names::Name;
use a6plan_tests::generate::plan::{self as make, a6_record, break_field, breakable, dname_record, name};
use a6plan_tests::generate::Random;
use a6plan_tests::lent::Sides;
use a6plan_tests::met::Met;
use a6plan_tests::plain::forward::arrangements;
use a6plan_tests::plain::plan::{self as plain, broken, repeated, Field, Place};
use a6plan_tests::reference::plan::{FIGURES, MOST, RECORD};
use a6plan_tests::text;

/// A call on a table, with all that it takes but the table and the figures. Lengths are those of the output and the TTLs.
enum Call {
    Check,
    Lookup(Vec<u8>, u32, [usize; 2]),
    Reverse(Vec<u8>, u8, usize),
    Collapse(Vec<u8>, usize),
}

impl Call {
    /// How many figures the call wants.
    fn wanted(&self) -> usize {
        if let Call::Check = self {
            2
        } else {
            FIGURES
        }
    }

    /// The number comes before 5 in the order of the call.
    fn is_before_5(&self, number: u32) -> bool {
        match self {
            Call::Check => [1, 2, 3].contains(&number),
            _ => [1, 2, 3, 4].contains(&number),
        }
    }

    /// The library's number with so many figures; all that it left is the reference's.
    fn number(&self, sides: &mut Sides, table: &[u8], figures: usize) -> u32 {
        match self {
            Call::Check => sides.check(table, figures),
            Call::Lookup(name, limit, [out, ttls]) => sides.lookup(table, name, *limit, [*out, *ttls, figures]),
            Call::Reverse(address, limit, out) => sides.reverse(table, address, *limit, [*out, figures]),
            Call::Collapse(name, out) => sides.collapse(table, name, [*out, figures]),
        }
    }
}

/// A table in order of six records.
fn good() -> Vec<u8> {
    let long = dname_record(&text::name(r"\[x2/4].IP6.ARPA"), &make::full_name(63, b'l').0);
    [&examples::ignored()[..], &dname_record(&name("IP6.ARPA"), &name("t")), &long].concat()
}

/// Calls that earn, with that table, each number that each can.
fn calls() -> Vec<(Call, u32)> {
    let (host, ignored, malformed) = (name("h.a"), name("p.a"), vec![3, b'a', 0]);
    let octets = |text: &str| address(text).to_be_bytes().to_vec();
    vec![
        (Call::Check, 0),
        (Call::Lookup(host.clone(), 2, [16, 1]), 0),
        (Call::Lookup(malformed.clone(), 2, [16, 1]), 4),
        (Call::Lookup(host.clone(), 2, [15, 1]), 5),
        (Call::Lookup(host.clone(), 2, [16, 2]), 5),
        (Call::Lookup(host.clone(), 0, [16, 1]), 6),
        (Call::Lookup(host.clone(), 2, [0, 0]), 7),
        (Call::Reverse(octets("3000::"), 1, 255), 0),
        (Call::Reverse(octets("3000::")[1..].to_vec(), 1, 255), 4),
        (Call::Reverse(octets("3000::"), 1, 254), 5),
        (Call::Reverse(octets("3000::"), 0, 255), 6),
        (Call::Reverse(octets("2000::"), 1, 255), 8),
        (Call::Collapse(host.clone(), 6 * RECORD), 0),
        (Call::Collapse(malformed, 6 * RECORD), 4),
        (Call::Collapse(host.clone(), 6 * RECORD - 1), 5),
        (Call::Collapse(host, 5 * RECORD), 7),
        (Call::Collapse(ignored, 6 * RECORD), 9),
    ]
}

struct Tables {
    sides: Sides,
    calls: Vec<(Call, u32)>,
}

impl Tables {
    fn new() -> Tables {
        Tables { sides: Sides::new(6 * RECORD), calls: calls() }
    }

    /// The number of a table and the place of its fault, which all calls give alike where it is not in order, whatever
    /// else they are made with.
    fn fault(&mut self, table: &[u8]) -> (u32, Place) {
        let number = self.sides.check(table, 2);
        let place = self.sides.place();
        if number != 0 {
            for (call, _) in &self.calls {
                let handed_on = (call.number(&mut self.sides, table, call.wanted()), self.sides.place());
                assert_eq!(handed_on, (number, place));
            }
        }
        (number, place)
    }
}

/// Record `index` of a table.
fn nth(table: &mut [u8], index: usize) -> &mut [u8] {
    &mut table[index * RECORD..(index + 1) * RECORD]
}

// 2: the first record and the first field.

#[test]
fn fields_are_numbered_from_the_type_0_to_the_ttl_6() {
    let mut record = a6_record(&name("h.a"), 64, 7, &name("p.a"));
    for (field, at) in [(6, 532), (5, 276), (4, 20), (3, 4), (2, 3), (1, 2), (0, 0)] {
        record[at] ^= 0x81;
        assert_eq!(Tables::new().fault(&record), (2, [0, field]), "octet {at} and all after it");
    }
}

/// Every field of every record, alone and among the others.
#[test]
fn each_field_of_each_record_is_told() {
    let mut tables = Tables::new();
    let good = good();
    assert_eq!(tables.fault(&good), (0, [0, 0]));
    for (index, record) in good.chunks(RECORD).enumerate() {
        for field in breakable(record) {
            let mut table = good.clone();
            break_field(nth(&mut table, index), field);
            assert_eq!(tables.fault(&table), broken(index, field), "{field:?} of record {index}");
            assert_eq!(tables.fault(nth(&mut table, index)), broken(0, field), "{field:?} of record {index} alone");
        }
    }
}

/// Every set of fields of every record.
#[test]
fn of_several_fields_the_first_is_told() {
    let mut tables = Tables::new();
    let good = good();
    for (index, record) in good.chunks(RECORD).enumerate() {
        let fields = breakable(record);
        for set in 1..1 << fields.len() {
            let of_set = || fields.iter().zip(0..).filter(|(_, at)| set >> at & 1 == 1).map(|(field, _)| *field);
            let mut table = good.clone();
            of_set().for_each(|field| break_field(nth(&mut table, index), field));
            let first = of_set().next().expect("a field");
            assert_eq!(
                tables.fault(&table),
                broken(index, first),
                "{:?} of record {index}",
                of_set().collect::<Vec<_>>()
            );
        }
    }
}

/// Every two fields of every two records: a later record plays no part, whichever field it is.
#[test]
fn of_two_records_the_first_is_told() {
    let mut tables = Tables::new();
    let good = good();
    let records: Vec<&[u8]> = good.chunks(RECORD).collect();
    for second in 1..records.len() {
        for first in 0..second {
            for field in breakable(records[first]) {
                for other in breakable(records[second]) {
                    let mut table = good.clone();
                    break_field(nth(&mut table, first), field);
                    break_field(nth(&mut table, second), other);
                    let said = tables.fault(&table);
                    assert_eq!(said, broken(first, field), "{field:?} of {first}, {other:?} of {second}");
                }
            }
        }
    }
}

/// Each field of the last one, and of all from some record on to the last.
#[test]
fn the_last_of_1024_records_is_told() {
    let mut tables = Tables::new();
    let unfinished = a6_record(&name("h.a"), 64, 7, &name("p.a"));
    for good in [unfinished.repeat(MOST), make::worst(63)] {
        for field in Field::ALL {
            let mut table = good.clone();
            for index in [MOST - 1, MOST - 2, MOST / 2, 1, 0] {
                break_field(nth(&mut table, index), field);
                assert_eq!(tables.fault(&table), broken(index, field), "{field:?} of record {index}");
            }
        }
    }
}

// 3: the first DNAME with the owner of an earlier one.

/// What a record is in the list of a table: a DNAME of this name, broken in this field, or neither.
#[derive(Clone, Copy, PartialEq)]
enum Kind {
    Dname(char),
    Broken(Field),
    Other,
}

/// What a table of such records earns.
fn earned(kinds: &[Kind]) -> (u32, Place) {
    for (index, kind) in kinds.iter().enumerate() {
        if let Kind::Broken(field) = kind {
            return broken(index, *field);
        }
    }
    let repeats = |index: &usize| matches!(kinds[*index], Kind::Dname(_)) && kinds[..*index].contains(&kinds[*index]);
    (0..kinds.len()).find(repeats).map_or((0, [0, 0]), repeated)
}

/// Every list of some of these, in every order: three DNAMEs of one name and two of another, in letters of either case,
/// an A6 record of the first name, and a record that is broken.
#[test]
fn twins_are_told_in_every_order_and_a_broken_record_before_them() {
    let mut tables = Tables::new();
    let dname = |owner: &str, target: &str| dname_record(&name(owner), &name(target));
    let mut lasting = dname("x.a", "t");
    break_field(&mut lasting, Field::Ttl);
    let records = [
        (dname("x.a", "t"), Kind::Dname('x')),
        (dname("X.a", "u"), Kind::Dname('x')),
        (dname("x.A", "t"), Kind::Dname('x')),
        (dname("y.a", "x.a"), Kind::Dname('y')),
        (dname("Y.A", "t"), Kind::Dname('y')),
        (a6_record(&name("x.a"), 64, 7, &name("x.a")), Kind::Other),
        (lasting, Kind::Broken(Field::Ttl)),
    ];
    let mut met = Met::default();
    for list in arrangements(records.len()) {
        let table: Vec<u8> = list.iter().flat_map(|at| records[*at].0).collect();
        let kinds: Vec<Kind> = list.iter().map(|at| records[*at].1).collect();
        let said = tables.fault(&table);
        assert_eq!(said, earned(&kinds), "{list:?}");
        met.count(said.0);
    }
    met.are("lists of records", &[0, 2, 3], 50);
}

/// Some of three pairs in a full table, one within another, one beside them; then all names in letters of either case.
#[test]
fn of_several_twins_in_a_full_table_the_first_is_told() {
    const PAIRS: [(usize, usize); 3] = [(0, MOST - 1), (7, 1_000), (511, 512)];
    let mut tables = Tables::new();
    let mut random = Random::new(81);
    for longest in [1, 63] {
        let good = make::worst(longest);
        for set in 1..1 << PAIRS.len() {
            let pairs = || PAIRS.iter().zip(0..).filter(|(_, at)| set >> at & 1 == 1).map(|(pair, _)| *pair);
            let mut table = good.clone();
            pairs().for_each(|(one, other)| table.copy_within(one * RECORD..(one + 1) * RECORD, other * RECORD));
            let first = pairs().map(|(_, other)| other).min().expect("a pair");
            assert_eq!(tables.fault(&table), repeated(first), "set {set}");
            make::mix_case(&mut random, &mut table);
            assert_eq!(tables.fault(&table), repeated(first), "set {set}, in either case");
            break_field(nth(&mut table, MOST - 1), Field::Zero);
            assert_eq!(tables.fault(&table), broken(MOST - 1, Field::Zero), "set {set}, the last one broken");
        }
    }
}

// The other numbers.

/// 1 for tables with twins and with records that are broken.
#[test]
fn a_table_of_no_good_length_has_no_place() {
    let mut tables = Tables::new();
    let twins = dname_record(&name("x.a"), &name("t")).repeat(2);
    let mut bad = good();
    break_field(nth(&mut bad, 1), Field::Owner);
    for table in [good(), twins, bad] {
        for table in [&table[1..], &table[..table.len() - 1], &[&table[..], &[0]].concat(), &table.repeat(MOST)] {
            assert_eq!(tables.fault(table), (1, [0, 0]), "{} octets", table.len());
        }
    }
}

/// Tables that earn 0 to 3, calls that earn every number, and figures of 0 to 6. With as many as the call wants, index and
/// field are zero but for 2 and 3. With more or fewer all that is lent is zero, and the number is 5 unless one is earned
/// that comes before it.
#[test]
fn figures_of_another_length_are_5_in_its_place_and_zero() {
    let Tables { mut sides, calls } = Tables::new();
    let mut met = Met::default();
    for (table, of_table) in make::earning(&good()) {
        for (at, (call, of_call)) in calls.iter().enumerate() {
            let earned = if of_table == 0 { *of_call } else { of_table };
            for figures in 0..=6 {
                let number = call.number(&mut sides, &table, figures);
                let fits = figures == call.wanted();
                let expected = if fits || call.is_before_5(earned) { earned } else { 5 };
                assert_eq!(number, expected, "call {at}, {figures} figures, {earned} is earned");
                if !fits {
                    assert!(sides.blank(), "call {at}, {figures} figures, {number}");
                } else if ![2, 3].contains(&number) {
                    assert_eq!(sides.place(), [0, 0], "call {at}, {number}");
                }
                met.count(number);
            }
        }
    }
    met.are("calls with figures of any length", &[0, 1, 2, 3, 4, 5, 6, 7, 8, 9], 0);
}

// Generated tables.

const GENERATED: usize = 200_000;

/// Library, reference and plain rules agree on the number and the place of generated tables, which are broken in every
/// field, in several at once and in several records, and have twins, alone and beside broken records. One call for each,
/// with figures of any length, hands them on.
#[test]
fn generated_tables_have_the_place_of_the_plain_rules() {
    let Tables { mut sides, calls } = Tables::new();
    let mut random = Random::new(82);
    let (mut made, mut table) = (Name::new(), Vec::new());
    let mut met = Met::default();
    let (mut fields, mut indices) = ([0; 7], [[0; 4]; 2]);
    let (mut several_fields, mut several_records, mut beside) = (0, 0, 0);
    for case in 0..GENERATED {
        make::any_table(&mut random, &mut made, &mut table);
        let number = sides.check(&table, 2);
        let place = sides.place();
        assert_eq!((number, place), plain::check(&table), "case {case}");
        met.count(number);
        let [index, field] = place.map(|figure| figure as usize);
        if number == 2 {
            fields[field] += 1;
            several_fields += (plain::faults(nth(&mut table, index)).count() > 1) as usize;
            let (bad, kept): (Vec<&[u8]>, _) = table.chunks(RECORD).partition(|record| plain::fault(record).is_some());
            several_records += (bad.len() > 1) as usize;
            beside += (plain::check(&kept.concat()).0 == 3) as usize;
        }
        if number == 2 || number == 3 {
            indices[number as usize - 2][index.min(3)] += 1;
        }
        let (call, _) = &calls[random.below(calls.len())];
        let figures = if random.once_in(8) { random.below(7) } else { call.wanted() };
        let handed_on = call.number(&mut sides, &table, figures);
        assert!(number == 0 || handed_on == number, "case {case}: {handed_on} for {number}");
        if figures == call.wanted() {
            assert_eq!(sides.place(), place, "case {case}");
        } else {
            assert!(sides.blank(), "case {case}");
        }
    }
    met.are("check", &[0, 1, 2, 3], GENERATED / 100);
    println!(
        "fields {fields:?}, indices {indices:?}, several fields {several_fields}, several records {several_records}"
    );
    println!("twins beside a broken record {beside}");
    assert!(fields.iter().all(|times| *times > GENERATED / 100), "{fields:?}");
    assert!(indices[0].iter().chain(&indices[1][1..]).all(|times| *times > GENERATED / 200), "{indices:?}");
    assert!([several_fields, several_records, beside].iter().all(|times| *times > GENERATED / 100));
}
