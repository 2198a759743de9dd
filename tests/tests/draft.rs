//! `a6plan_read_1998` and `a6plan_write_1998` against the reference, the plain rules and the layout of A6 data (T-02).

mod layouts;

use a6plan_tests::generate::a6 as make;
use a6plan_tests::generate::examples::address;
use a6plan_tests::generate::names::Name;
use a6plan_tests::generate::Random;
use a6plan_tests::layout::{Layout, Sides};
use a6plan_tests::met::Met;
use a6plan_tests::reference::a6::VALUE;
use a6plan_tests::{text, vectors};
use layouts::{data_with, long_name};

const LAYOUT: Layout = Layout::Draft;

/// Data with this address and prefix length, and this name, which is empty at prefix length 0.
fn laid_out(address: u128, length: u8, name: &[u8]) -> Vec<u8> {
    [&address.to_be_bytes()[..], &[length], name].concat()
}

/// The address in a value.
fn address_in(value: &[u8]) -> u128 {
    u128::from_be_bytes(value[1..17].try_into().expect("sixteen octets"))
}

// The reader, case by case.

/// Address, prefix length and name as a carrier has them, and the address and the name that they are read as.
#[test]
fn what_carriers_send_is_read() {
    let mut sides = Sides::new(LAYOUT);
    for (sent, length, name, read, standard) in [
        ("2001:db8:0:5::", 0, "", "2001:db8:0:5::", ""),
        ("::7", 64, "p.a", "::7", "p.a"),
        ("2001:db8:0:5::7", 64, "p.a", "::7", "p.a"),
        ("2001:db8:ffff:5::7", 44, "p.a", "0:0:f:5::7", "p.a"),
        ("ffff::", 1, ".", "7fff::", "."),
        ("::1", 127, "p.a", "::1", "p.a"),
        ("2001:db8::1", 128, "p.a", "::", "p.a"),
        ("::7", 64, r"\[x3/4].\[x5A/8].a", "::7", r"\[x5A3/12].a"),
    ] {
        let [name, standard] = [name, standard].map(|text| if text.is_empty() { vec![] } else { text::name(text) });
        let value = sides.value_of(&laid_out(address(sent), length, &name));
        let mut expected = [&[length][..], &address(read).to_be_bytes(), &[standard.len() as u8], &standard].concat();
        expected.resize(VALUE, 0);
        assert_eq!(value, expected, "{sent} {length}");
        assert_eq!(sides.data_of(&value), laid_out(address(read), length, &standard), "{sent} {length}");
    }
}

/// Every prefix length, good or not, with every number of octets up to 300: before the name is whole the data end too
/// soon, and after it octets are left over; a malformed name is one as soon as its fault is there.
#[test]
fn every_prefix_length_with_every_number_of_octets() {
    let mut sides = Sides::new(LAYOUT);
    let mut met = Met::default();
    let ones = [1, b'a'].repeat(127);
    let names = [
        (vec![0], 0),
        (long_name(), 0),
        ([&ones[..], &[0]].concat(), 0),
        (vec![65, 4, 0xf0, 65, 4, 0x10, 1, b'a', 0], 0),
        (vec![0xc0], 12),
        (vec![65, 9, 0x80, 0x81], 12),
        ([&ones[..], &[1, b'a']].concat(), 12),
    ];
    for (name, fault) in names {
        for length in 0..=255 {
            let mut data = laid_out(u128::MAX, length, &name);
            data.resize(300, 7);
            let named = 17 + if length == 0 { 0 } else { name.len() };
            for octets in 0..=data.len() {
                let expected = match octets {
                    0..17 => 11,
                    _ if length > 128 => 10,
                    _ if octets < named => 11,
                    _ if length > 0 && fault > 0 => fault,
                    _ if octets == named => 0,
                    _ => 13,
                };
                let number = sides.read_plainly(&data[..octets]);
                assert_eq!(number, expected, "{octets} octets, prefix length {length}, name {name:02x?}");
                met.count(number);
            }
        }
    }
    met.are("every number of octets", &[0, 10, 11, 12, 13], 500);
}

/// The number that seventeen octets earn of which this is the last: a finished record, no name, or no prefix length.
fn of_seventeen(last: u8) -> u32 {
    match last {
        0 => 0,
        1..=128 => 11,
        _ => 10,
    }
}

/// The prefix length is judged where it stands: not before seventeen octets are there, and then before all that follows.
/// The first octet, which A6 data have it in, may be any.
#[test]
fn the_prefix_length_is_judged_after_the_address() {
    let mut sides = Sides::new(LAYOUT);
    for octet in 0..=255 {
        for octets in 0..17 {
            assert_eq!(sides.read(&[octet; 17][..octets]), 11, "{octets} octets {octet}");
        }
        assert_eq!(sides.read(&[octet; 17]), of_seventeen(octet), "seventeen octets {octet}");
        let first = (octet as u128) << 120;
        assert_eq!(address_in(&sides.value_of(&laid_out(first, 0, &[]))), first, "first octet {octet}");
        sides.value_of(&laid_out(first, 64, &[0]));
        if octet > 128 {
            for name in [&[][..], &[0], &[0, 0], &[66], &[5, b'a']] {
                assert_eq!(sides.read(&laid_out(0, octet, name)), 10, "prefix length {octet}, name {name:02x?}");
            }
        }
    }
}

/// A name at prefix length 0 is left over as well, the root included.
#[test]
fn at_prefix_length_0_every_octet_after_the_seventeenth_is_left_over() {
    let mut sides = Sides::new(LAYOUT);
    for octet in 0..=255 {
        for more in [1, 2, 3, 16, 17, 255, 256, 300] {
            let data = laid_out(u128::MAX, 0, &vec![octet; more]);
            assert_eq!(sides.read_plainly(&data), 13, "{more} octets {octet}");
        }
    }
    for name in [&[1, b'a', 0][..], &[65, 1, 0x81, 0], &long_name()] {
        assert_eq!(sides.read_plainly(&laid_out(0, 0, name)), 13, "{name:02x?}");
    }
}

/// T-02: the first bits are cleared, as many as the prefix length says, whichever of them are set; all others are kept,
/// each of them alone too. What is written has the first bits clear.
#[test]
fn first_bits_are_cleared_and_the_others_kept() {
    let mut sides = Sides::new(LAYOUT);
    for length in 0..=128 {
        let name: &[u8] = if length == 0 { &[] } else { &[1, b'p', 0] };
        let kept = make::suffix(length);
        let alone = (0..128).map(|bit| 1_u128 << bit);
        let all = [0, !kept, kept, u128::MAX, u128::MAX / 3, u128::MAX / 3 * 2];
        for set in alone.chain(all) {
            for address in [set, set | kept, set & !kept, set | !kept] {
                let data = laid_out(address, length, name);
                assert_eq!(sides.read_plainly(&data), 0);
                let value = sides.value().to_vec();
                for bit in 0..128 {
                    let of = |address: u128| address >> (127 - bit) & 1;
                    let expected = if bit < length { 0 } else { of(address) };
                    assert_eq!(of(address_in(&value)), expected, "bit {bit}, prefix length {length}, {data:02x?}");
                }
                assert_eq!(sides.data_of(&value), laid_out(address & kept, length, name), "{data:02x?}");
            }
        }
    }
}

// A6 data and these.

/// In 412 rows prefix length and suffix are good, and BIND's verdict is one on the name. With set bits before the suffix the
/// data earn the same numbers in this layout and give the same values.
#[test]
fn rows_of_a6_wire_read_earn_their_numbers_in_this_layout() {
    let (mut a6, mut draft) = (Sides::new(Layout::A6), Sides::new(LAYOUT));
    let mut met = Met::default();
    for row in vectors::rows(vectors::A6_WIRE_READ) {
        let (wire, number) = (vectors::octets(row[1]), row[3].parse().expect("a number"));
        let whole = wire.first().is_some_and(|length| *length <= 128 && wire.len() >= Layout::A6.before_name(*length));
        if whole {
            assert_eq!(draft.read_plainly(&make::relaid(&wire, 0xff)), number, "{}", row[1]);
            a6.read(&wire);
            assert_eq!(draft.value(), a6.value(), "{}", row[1]);
            met.count(number);
        }
    }
    met.are("rows", &[0, 11, 12, 13], 30);
    assert_eq!(met.all(), 412);
}

/// Finished A6 data have seventeen octets too, and the last one of their address stands where the prefix length does here.
#[test]
fn finished_a6_data_are_judged_by_their_last_octet() {
    let mut sides = Sides::new(LAYOUT);
    for last in 0..=255 {
        let data = [&[0, 0x20, 0x01, 0x0d, 0xb8][..], &[0; 11], &[last]].concat();
        assert_eq!(sides.read_plainly(&data), of_seventeen(last), "last octet {last}");
    }
}

/// The same suffix and name in both layouts, whatever stands before the suffix here: the same value.
#[test]
fn both_readers_give_the_same_values() {
    let (mut a6, mut draft) = (Sides::new(Layout::A6), Sides::new(LAYOUT));
    let mut random = Random::new(21);
    let (mut name, mut data) = (Name::new(), Vec::new());
    for _ in 0..60_000 {
        make::good_data(&mut random, Layout::A6, &mut name, &mut data);
        let before = random.pick(&[0, 0xff, 0x80, 1, 0x5a]);
        assert_eq!(draft.value_of(&make::relaid(&data, before)), a6.value_of(&data), "{data:02x?}");
    }
}

/// Both writers refuse the same values, with the same numbers.
#[test]
fn both_writers_take_the_same_values() {
    let (mut a6, mut draft) = (Sides::new(Layout::A6), Sides::new(LAYOUT));
    let mut random = Random::new(22);
    let mut name = Name::new();
    let mut value = [0; VALUE];
    let mut met = Met::default();
    for _ in 0..100_000 {
        make::any_value(&mut random, &mut name, &mut value);
        let number = draft.write(&value, 272);
        assert_eq!(number, a6.write(&value, 272), "{value:02x?}");
        met.count(number);
        if number == 0 {
            assert_eq!(draft.data(), make::relaid(a6.data(), 0), "{value:02x?}");
        }
    }
    met.are("both writers", &[0, 10, 12], 5_000);
}

/// Data read, written in the other layout, read there and written back are their standard form. In the other layout they
/// are in standard form too, and hold the same value.
fn way_round(layout: Layout, seed: u64) {
    let (mut here, mut there) = (Sides::new(layout), Sides::new(layout.other()));
    let mut random = Random::new(seed);
    let (mut name, mut data) = (Name::new(), Vec::new());
    let mut changed = 0;
    for _ in 0..60_000 {
        make::good_data(&mut random, layout, &mut name, &mut data);
        let value = here.value_of(&data);
        let converted = there.data_of(&value);
        assert_eq!(converted, layout.other().standard(&converted), "{data:02x?}");
        let back = there.value_of(&converted);
        assert_eq!(back, value, "{data:02x?}");
        let standard = here.data_of(&back);
        assert_eq!(standard, layout.standard(&data), "{data:02x?}");
        changed += (standard != data) as usize;
    }
    assert!(changed > 20_000, "{changed} were not in standard form");
}

/// T-02: from A6 data to this layout and back is the standard form of A6 data.
#[test]
fn a6_data_by_way_of_this_layout_are_their_standard_form() {
    way_round(Layout::A6, 23);
}

#[test]
fn data_of_this_layout_by_way_of_a6_data_are_their_standard_form() {
    way_round(LAYOUT, 24);
}

/// The standard form at every prefix length: first bits zero, bit labels merged, all else as it was.
#[test]
fn the_standard_form_at_every_prefix_length() {
    let (mut a6, mut draft) = (Sides::new(Layout::A6), Sides::new(LAYOUT));
    for length in 1..=128 {
        let data = data_with(length, &text::name(r"\[x3/4].\[x5A/8].a"));
        let standard = laid_out(make::suffix(length), length, &text::name(r"\[x5A3/12].a"));
        let value = draft.value_of(&data);
        assert_eq!(draft.data_of(&value), standard, "prefix length {length}");
        let a6_data = a6.data_of(&value);
        assert_eq!(make::relaid(&a6_data, 0), standard, "prefix length {length}");
        assert_eq!(a6.value_of(&a6_data), value, "prefix length {length}");
    }
}
