//! `a6plan_read` and `a6plan_write` against the reference, the plain rules and the vectors (01, A6 data).

mod layouts;

use a6plan_tests::layout::{Layout, Sides};
use a6plan_tests::reference::a6::VALUE;
use a6plan_tests::{text, vectors};
use layouts::data_with;
use std::net::Ipv6Addr;

const LAYOUT: Layout = Layout::A6;

// The vectors.

/// The value that BIND's text shows: prefix length, address (none at 128), name (none at 0).
fn value_from_text(text: &str) -> Vec<u8> {
    let columns: Vec<&str> = text.split(' ').collect();
    let length: u8 = columns[0].parse().expect("a prefix length");
    let address = if columns[1].is_empty() { Ipv6Addr::UNSPECIFIED } else { columns[1].parse().expect("an address") };
    let name = columns.get(2).map_or(vec![], |name| text::name(name));
    assert_eq!(name.is_empty(), length == 0);
    let mut value = vec![length];
    value.extend(address.octets());
    value.push(name.len() as u8);
    value.extend(name);
    value.resize(VALUE, 0);
    value
}

/// All 453 rows are put: BIND's verdict in 01's numbers, the value that BIND prints, and the data it writes.
#[test]
fn rows_of_a6_wire_read_earn_their_numbers() {
    let mut sides = Sides::new(LAYOUT);
    let mut used = [0; 14];
    for row in vectors::rows(vectors::A6_WIRE_READ) {
        let [_kind, wire, verdict, number, standard, text] = row[..] else { panic!("six columns: {row:?}") };
        let number: u32 = number.parse().expect("a number");
        assert_eq!(sides.read(&vectors::octets(wire)), number, "{wire}: {verdict}");
        used[number as usize] += 1;
        if number == 0 {
            let value = sides.value().to_vec();
            assert_eq!(value, value_from_text(text), "{text}");
            assert_eq!(sides.data_of(&value), vectors::octets(standard), "{text}");
        }
    }
    assert_eq!(used, [153, 0, 0, 0, 0, 0, 0, 0, 0, 0, 5, 185, 31, 79]);
}

/// The 198 rows that BIND accepts are put: their octets read to what BIND prints and are written back unchanged. The
/// 22 refused rows have no octets: they are refusals of text, which no function here reads.
#[test]
fn octets_of_a6_text_wire_are_read_and_written_back() {
    let mut sides = Sides::new(LAYOUT);
    let (mut used, mut refused) = (0, 0);
    for row in vectors::rows(vectors::A6_TEXT_WIRE) {
        let [kind, text, verdict, wire, printed] = row[..] else { panic!("five columns: {row:?}") };
        if kind == "refused" {
            assert_eq!(wire, "-", "{text}: {verdict}");
            refused += 1;
            continue;
        }
        let wire = vectors::octets(wire);
        let value = sides.value_of(&wire);
        assert_eq!(value, value_from_text(printed), "{text}");
        assert_eq!(sides.data_of(&value), wire, "{text}");
        used += 1;
    }
    assert_eq!((used, refused), (198, 22));
}

// The reader, case by case.

/// 01, Examples to check: octets of suffix and bits of padding.
#[test]
fn the_examples_of_suffix_lengths() {
    let mut sides = Sides::new(LAYOUT);
    for (length, suffix) in [(0, 16), (7, 16), (8, 15), (121, 1), (128, 0)] {
        let name: &[u8] = if length == 0 { &[] } else { &[0] };
        let data = [&[length][..], &vec![0xff; suffix], name].concat();
        let value = sides.value_of(&data);
        let address = u128::from_be_bytes(value[1..17].try_into().unwrap());
        assert_eq!(address, u128::MAX.checked_shr(length as u32).unwrap_or(0), "prefix length {length}");
        assert_eq!(sides.data_of(&value).len(), data.len());
    }
    assert_eq!(sides.read(&[129]), 10);
}

/// 01, A6 data: set padding bits do not show in the value, nor in what is written.
#[test]
fn padding_makes_no_difference() {
    let mut sides = Sides::new(LAYOUT);
    for length in 1..128_u8 {
        let set = data_with(length, &[1, b'p', 0]);
        let mut clear = set.clone();
        clear[1] &= 0xff >> (length % 8);
        let value = sides.value_of(&set);
        assert_eq!(value, sides.value_of(&clear), "prefix length {length}");
        assert_eq!(sides.data_of(&value), clear, "prefix length {length}");
    }
}
