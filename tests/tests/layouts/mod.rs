//! What is tested in both layouts of data, A6 data (01, A6 data) and the 1998 draft's (T-02). The file of tests that this
//! module is part of says in which one.

use super::LAYOUT;
use a6plan_tests::generate::a6 as make;
use a6plan_tests::generate::names::{self, Name};
use a6plan_tests::generate::Random;
use a6plan_tests::layout::Sides;
use a6plan_tests::met::Met;
use a6plan_tests::reference::a6::VALUE;

/// A name of 255 octets that begins with bit labels and ends with a long label.
pub fn long_name() -> Vec<u8> {
    let mut name = Name::new();
    name.bits(9, &[0xab, 0x80]);
    name.bits(16, &[0x12, 0x34]);
    name.bits(3, &[0xa0]);
    for length in [1, 2, 63, 30, 7, 20, 40] {
        name.label(&[b'n'; 63][..length]);
    }
    name.bits(127, &[0xfe; 16]);
    let left = 254 - name.octets.len() - 1;
    name.label(&[b'e'; 63][..left]);
    name.end();
    assert_eq!(name.octets.len(), 255);
    name.octets
}

/// Data with this prefix length, all other octets before the name set, padding and first bits too, and this name.
pub fn data_with(length: u8, name: &[u8]) -> Vec<u8> {
    let mut data = vec![0xff; LAYOUT.before_name(length)];
    data[LAYOUT.prefix()] = length;
    data.extend(if length == 0 { &[] } else { name });
    data
}

// The reader, case by case.

/// The octets after a cut are still in memory, so that a reader who went on would find a whole record.
#[test]
fn every_prefix_length_with_every_truncation_and_one_octet_over() {
    let mut sides = Sides::new(LAYOUT);
    for name in [&long_name()[..], &[0], &[65, 4, 0xf0, 65, 4, 0x10, 1, b'a', 0]] {
        for length in 0..=255 {
            let whole = data_with(length, name);
            let over = [&whole[..], &[0]].concat();
            for cut in 0..=over.len() {
                let expected = match cut {
                    _ if cut <= LAYOUT.prefix() => 11,
                    _ if length > 128 => 10,
                    _ if cut < whole.len() => 11,
                    _ if cut == whole.len() => 0,
                    _ => 13,
                };
                assert_eq!(sides.read(&over[..cut]), expected, "{cut} octets, prefix length {length}");
            }
        }
    }
}

/// 01, What comes back: at each label the tests come in their order, and octets left over come last.
#[test]
fn the_reader_goes_left_to_right() {
    let mut sides = Sides::new(LAYOUT);
    let ones = |octets: usize| [1, b'a'].repeat(octets / 2);
    let bits = |count: usize| {
        let mut name = Name::new();
        name.bits(count, &[0xff; 32]);
        name.octets
    };
    let cases: Vec<(&str, Vec<u8>, u32)> = vec![
        ("nothing where the name begins", vec![], 11),
        ("a label and then nothing", ones(2), 11),
        ("a bad first octet and nothing after it", vec![66], 12),
        ("a pointer", vec![0xc0, 0], 12),
        ("a bad first octet after labels", [&ones(10)[..], &[128]].concat(), 12),
        ("a bit label without its count", vec![65], 11),
        ("a bit label without its bits", vec![65, 1], 11),
        ("a label beyond the end", vec![5, b'a', b'b'], 11),
        ("a label beyond the end and beyond 255 octets", [&ones(254)[..], &[5, b'a']].concat(), 11),
        ("a bit label beyond the end and beyond 255 octets", [&ones(254)[..], &[65, 0, 1]].concat(), 11),
        ("a count octet missing at 255 octets", [&ones(254)[..], &[65]].concat(), 11),
        ("a label beyond 255 octets", [&ones(254)[..], &[1, b'a']].concat(), 12),
        ("a bit label beyond 255 octets", [&ones(252)[..], &[65, 9, 1, 0]].concat(), 12),
        ("a label beyond 255 octets, then a whole name", [&ones(254)[..], &[1, b'a', 0, 0]].concat(), 12),
        ("254 octets of labels and the zero octet", [&ones(254)[..], &[0]].concat(), 0),
        ("255 octets of labels and nothing", [&ones(252)[..], &[2, b'a', b'b']].concat(), 11),
        ("255 octets of labels and the zero octet", [&ones(252)[..], &[2, b'a', b'b', 0]].concat(), 12),
        ("255 octets of labels and a bad first octet", [&ones(252)[..], &[2, b'a', b'b', 99]].concat(), 12),
        ("255 octets of labels and a cut label", [&ones(252)[..], &[2, b'a', b'b', 1]].concat(), 11),
        ("unused bits set and nothing after them", vec![65, 1, 0x81], 12),
        ("unused bits set in a label that is cut", vec![65, 9, 0x81], 11),
        ("257 bits in a run and nothing after them", [bits(256), bits(1)].concat(), 12),
        ("257 bits in a run, the last label cut", [&bits(256)[..], &[65, 1]].concat(), 11),
        ("256 bits in a run and nothing after them", [bits(255), bits(1)].concat(), 11),
        ("256 bits in a run", [&bits(255)[..], &bits(1), &[0]].concat(), 0),
        ("octets left over", vec![0, 0], 13),
        ("octets left over that are no label", vec![0, 0xc0], 13),
        ("octets left over after 255", [&ones(254)[..], &[0, 7]].concat(), 13),
        ("a malformed name and octets after it", vec![65, 1, 0x81, 0, 1, 2, 3], 12),
    ];
    for (what, name, expected) in cases {
        for length in [1, 64, 121, 128] {
            assert_eq!(sides.read(&data_with(length, &name)), expected, "{what}, prefix length {length}");
        }
    }
}

#[test]
fn a_value_slice_not_of_273_octets_is_refused_before_everything() {
    let mut sides = Sides::new(LAYOUT);
    for length in [0, 1, 16, 17, 18, 255, 256, 272, 274, 300] {
        let short = [vec![], vec![129]];
        let whole = [(129, &[][..]), (0, &[]), (128, &[0]), (128, &[66]), (1, &[0, 0]), (1, &[])];
        for data in short.into_iter().chain(whole.map(|(length, name)| data_with(length, name))) {
            assert_eq!(sides.read_into(&data, length), 5, "{length} octets of value for {data:02x?}");
        }
    }
}

// The writer, case by case.

/// A good value with this prefix length: all other address bits set, and the name.
fn value_with(length: u8, name: &[u8]) -> Vec<u8> {
    let name = if length == 0 { &[] } else { name };
    let mut value = [&[length][..], &make::suffix(length).to_be_bytes(), &[name.len() as u8], name].concat();
    value.resize(VALUE, 0);
    value
}

#[test]
fn every_prefix_length_is_written_with_room_exact_and_short() {
    let mut sides = Sides::new(LAYOUT);
    let long = [&[63; 64][..], &[63; 64], &[63; 64], &[61; 62], &[0]].concat();
    for name in [&[0][..], &[1, b'a', 0], &[65, 4, 0xf0, 0], &long] {
        for length in 0..=255 {
            let value = value_with(length, name);
            if length > 128 {
                assert_eq!(sides.write(&value, 300), 10, "prefix length {length}");
                continue;
            }
            let data = sides.data_of(&value);
            assert_eq!(data.len(), LAYOUT.before_name(length) + if length == 0 { 0 } else { name.len() });
            assert_eq!(sides.value_of(&data), value, "prefix length {length}");
            for out in 0..data.len() {
                assert_eq!(sides.write(&value, out), 7, "output of {out}, prefix length {length}");
            }
            for out in [data.len(), data.len() + 1, 300, 600] {
                assert_eq!(sides.write(&value, out), 0, "output of {out}, prefix length {length}");
                assert_eq!(sides.data(), data);
            }
        }
    }
}

/// 01, What comes back: the first L bits of a value's address are zero.
#[test]
fn every_set_bit_among_the_first_is_refused() {
    let mut sides = Sides::new(LAYOUT);
    for length in 0..=128_u8 {
        for bit in 0..128 {
            let mut value = value_with(length, &[1, b'a', 0]);
            value[1..17].copy_from_slice(&(1_u128 << (127 - bit)).to_be_bytes());
            let expected = if bit < length { 12 } else { 0 };
            assert_eq!(sides.write(&value, 300), expected, "bit {bit}, prefix length {length}");
        }
    }
}

#[test]
fn every_octet_set_after_the_name_is_refused() {
    let mut sides = Sides::new(LAYOUT);
    for (length, name) in [(0, &[][..]), (64, &[0]), (128, &[1, b'a', 0]), (1, &[1, 0, 65, 2, 0xc0, 0])] {
        for at in 18 + name.len()..VALUE {
            for octet in [1, 128, 255] {
                let mut value = value_with(length, name);
                value[at] = octet;
                assert_eq!(sides.write(&value, 300), 12, "octet {at}, prefix length {length}");
            }
        }
    }
}

#[test]
fn every_name_length_but_the_right_one_is_refused() {
    let mut sides = Sides::new(LAYOUT);
    for (length, name) in [(0, &[][..]), (64, &[0]), (128, &[1, b'a', 0]), (7, &[1, 0, 65, 2, 0xc0, 0])] {
        for named in 0..=255 {
            let mut value = value_with(length, name);
            value[17] = named;
            let expected = if named as usize == name.len() { 0 } else { 12 };
            assert_eq!(sides.write(&value, 300), expected, "name length {named}, prefix length {length}");
        }
    }
}

#[test]
fn names_malformed_or_not_in_standard_form_are_refused() {
    let mut sides = Sides::new(LAYOUT);
    let full = [[1, b'a'].repeat(126), vec![2, b'a', b'b']].concat();
    let cases: Vec<(&str, Vec<u8>)> = vec![
        ("no name", vec![]),
        ("no zero octet", vec![1, b'a']),
        ("a pointer", vec![0xc0, 0]),
        ("a bad first octet", vec![64, 0]),
        ("a label beyond the name", vec![3, b'a', 0]),
        ("a bit label without its count", vec![65]),
        ("unused bits set", vec![65, 1, 0x81, 0]),
        ("two bit labels side by side", vec![65, 1, 0x80, 65, 1, 0x80, 0]),
        ("two bit labels side by side after a label", vec![1, b'a', 65, 1, 0x80, 65, 8, 0x80, 1, b'b', 0]),
        ("octets after the zero octet", vec![1, b'a', 0, 0]),
        ("a name after the name", vec![0, 1, b'a', 0]),
        ("255 octets without a zero octet", full),
    ];
    for (what, name) in cases {
        for length in [1, 8, 64, 127, 128] {
            assert_eq!(sides.write(&value_with(length, &name), 300), 12, "{what}, prefix length {length}");
        }
        let mut unwanted = value_with(1, &name);
        unwanted[0] = 0;
        assert_eq!(sides.write(&unwanted, 300), if name.is_empty() { 0 } else { 12 }, "{what}, prefix length 0");
    }
    let mut unwanted = value_with(1, &[1, b'a', 0]);
    unwanted[0] = 0;
    assert_eq!(sides.write(&unwanted, 300), 12, "a good name, prefix length 0");
}

/// 10 comes before 12, and 12 before 7.
#[test]
fn the_writer_keeps_its_order() {
    let mut sides = Sides::new(LAYOUT);
    let mut value = value_with(200, &[66, 0]);
    value[1] = 0xff;
    assert_eq!(sides.write(&value, 0), 10);
    value[0] = 128;
    assert_eq!(sides.write(&value, 0), 12);
    value[1] = 0;
    assert_eq!(sides.write(&value, 0), 12);
    assert_eq!(sides.write(&value_with(128, &[1, 66, 0]), 0), 7);
}

#[test]
fn a_value_or_figures_of_another_length_are_refused_before_everything() {
    let mut sides = Sides::new(LAYOUT);
    let good = value_with(64, &[1, b'a', 0]);
    let bad = value_with(200, &[66, 0]);
    for value in [&good, &bad] {
        let long = [&value[..], &[0; 27]].concat();
        for length in [0, 1, 17, 18, 272, 273, 274, 300] {
            for figures in 0..=4 {
                if length == VALUE && figures == 2 {
                    continue;
                }
                for out in [0, 1, 12, 600] {
                    assert_eq!(sides.write_into(&long[..length], out, figures), 5, "{length} {figures} {out}");
                }
            }
        }
    }
}

// Generated data and values.

const GENERATED: usize = 350_000;

/// Library, reference and plain rules agree on every octet, and every answer comes up often.
#[test]
fn generated_data_are_read_alike() {
    let mut sides = Sides::new(LAYOUT);
    let mut random = Random::new(11);
    let (mut name, mut data) = (Name::new(), Vec::new());
    let mut met = Met::default();
    for case in 0..GENERATED {
        make::any_data(&mut random, LAYOUT, &mut name, &mut data);
        met.count(if case % 2 == 0 { sides.read_plainly(&data) } else { sides.read(&data) });
    }
    met.are("read", &[0, 10, 11, 12, 13], GENERATED / 25);
}

/// As above, with outputs exact, one short, longer, empty and of any length.
#[test]
fn generated_values_are_written_alike() {
    let mut sides = Sides::new(LAYOUT);
    let mut random = Random::new(12);
    let mut name = Name::new();
    let mut value = [0; VALUE];
    let mut met = Met::default();
    for case in 0..GENERATED {
        make::any_value(&mut random, &mut name, &mut value);
        let size = LAYOUT.size(&value);
        let out = random.pick(&[size, size, size - 1, size + 1, 300, 0]);
        let out = if random.once_in(8) { random.below(400) } else { out };
        met.count(if case % 2 == 0 { sides.write_plainly(&value, out) } else { sides.write(&value, out) });
    }
    met.are("write", &[0, 7, 10, 12], GENERATED / 25);
}

/// Data read and written back are their standard form.
#[test]
fn what_is_read_and_written_back_is_the_standard_form() {
    let mut sides = Sides::new(LAYOUT);
    let mut random = Random::new(13);
    let (mut name, mut data) = (Name::new(), Vec::new());
    for _ in 0..60_000 {
        make::good_data(&mut random, LAYOUT, &mut name, &mut data);
        let value = sides.value_of(&data);
        let standard = LAYOUT.standard(&data);
        assert_eq!(sides.data_of(&value), standard, "{data:02x?}");
        assert_eq!(sides.write(&value, standard.len()), 0, "{data:02x?}");
        assert_eq!(sides.write(&value, standard.len() - 1), 7, "{data:02x?}");
        assert_eq!(sides.value_of(&standard), value, "{data:02x?}");
    }
}

/// Letters of either case count alike where names are compared (T-03). Reading and writing keep them as they are.
#[test]
fn letters_are_read_and_written_as_they_are() {
    let mut sides = Sides::new(LAYOUT);
    let mut random = Random::new(17);
    let (mut name, mut data) = (Name::new(), Vec::new());
    for _ in 0..20_000 {
        make::good_data(&mut random, LAYOUT, &mut name, &mut data);
        let before = LAYOUT.before_name(data[LAYOUT.prefix()]);
        names::mix_case(&mut random, &mut data[before..]);
        assert_eq!(sides.read_plainly(&data), 0);
        let value = sides.value_of(&data);
        let standard = LAYOUT.standard(&data);
        assert_eq!(sides.data_of(&value), standard, "{data:02x?}");
        // Where no bit labels are merged.
        if standard.len() == data.len() {
            assert_eq!(standard[before..], data[before..], "{data:02x?}");
            assert!(value[18..].starts_with(&data[before..]), "{data:02x?}");
        }
    }
}

/// A value is accepted exactly when reading what was written gives it back.
#[test]
fn what_is_written_and_read_back_is_itself() {
    let mut sides = Sides::new(LAYOUT);
    let mut random = Random::new(14);
    let mut name = Name::new();
    let mut value = [0; VALUE];
    for _ in 0..60_000 {
        make::good_value(&mut random, &mut name, &mut value);
        let data = sides.data_of(&value);
        assert_eq!(data.len(), LAYOUT.size(&value), "{value:02x?}");
        assert_eq!(sides.value_of(&data), value, "{data:02x?}");
    }
}

/// Every truncation of generated data; the octets after the cut are still in memory.
#[test]
fn every_truncation_of_generated_data_ends_too_soon() {
    let mut sides = Sides::new(LAYOUT);
    let mut random = Random::new(15);
    let (mut name, mut data) = (Name::new(), Vec::new());
    for _ in 0..1_500 {
        make::good_data(&mut random, LAYOUT, &mut name, &mut data);
        for cut in 0..data.len() {
            assert_eq!(sides.read(&data[..cut]), 11, "{cut} octets of {data:02x?}");
        }
    }
}

/// Octets without any plan, short and long.
#[test]
fn any_octets_are_read_alike() {
    let mut sides = Sides::new(LAYOUT);
    let mut random = Random::new(16);
    let mut name = Name::new();
    let mut data = Vec::new();
    for _ in 0..50_000 {
        data.clear();
        let length = random.below(320);
        let small = random.pick(&[2, 66, 256]);
        data.extend((0..length).map(|_| random.below(small) as u8));
        if random.once_in(2) {
            names::any(&mut random, &mut name);
            data.extend_from_slice(&name.octets);
        }
        sides.read_plainly(&data);
    }
}
