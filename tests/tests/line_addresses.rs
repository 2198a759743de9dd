//! Addresses in lines (T-06) against std, the vectors and the examples of RFC 4291 and RFC 5952.

use a6plan_tests::generate::lines as make;
use a6plan_tests::generate::plan::{a6_record, lasting, name};
use a6plan_tests::generate::Random;
use a6plan_tests::lent::Sides;
use a6plan_tests::lines::Lines;
use a6plan_tests::met::Met;
use a6plan_tests::reference::plan::RECORD;
use a6plan_tests::vectors;
use std::net::Ipv6Addr;

/// A text with this address, all bits of which count.
fn finished(address: &str) -> String {
    format!("h.a. 3600 A6 0 {address}")
}

/// The record of that text.
fn finished_record(address: u128) -> [u8; RECORD] {
    a6_record(&name("h.a"), 0, address, &[])
}

// The examples.

/// The text that section 4 asks for, and others that sections 1, 2, 4 and 5 show for the same address.
#[test]
fn the_examples_of_rfc_5952() {
    let mut lines = Lines::new();
    for (text, others) in [
        (
            "2001:db8::1:0:0:1",
            "2001:db8:0:0:1:0:0:1 2001:0db8:0:0:1:0:0:1 2001:db8::1:0:0:1 2001:db8::0:1:0:0:1
            2001:0db8::1:0:0:1 2001:db8:0:0:1::1 2001:db8:0000:0:1::1 2001:DB8:0:0:1::1",
        ),
        (
            "2001:db8:aaaa:bbbb:cccc:dddd:eeee:1",
            "2001:db8:aaaa:bbbb:cccc:dddd:eeee:0001 2001:db8:aaaa:bbbb:cccc:dddd:eeee:001
            2001:db8:aaaa:bbbb:cccc:dddd:eeee:01 2001:db8:aaaa:bbbb:cccc:dddd:eeee:1",
        ),
        ("2001:db8:aaaa:bbbb:cccc:dddd:0:1", "2001:db8:aaaa:bbbb:cccc:dddd::1 2001:db8:aaaa:bbbb:cccc:dddd:0:1"),
        ("2001:db8::1", "2001:db8:0:0:0::1 2001:db8:0:0::1 2001:db8:0::1 2001:db8::1 2001:0db8::0001 2001:db8::0:1"),
        ("2001:db8::aaaa:0:0:1", "2001:db8::aaaa:0:0:1 2001:db8:0:0:aaaa::1"),
        (
            "2001:db8:aaaa:bbbb:cccc:dddd:eeee:aaaa",
            "2001:db8:aaaa:bbbb:cccc:dddd:eeee:aaaa 2001:db8:aaaa:bbbb:cccc:dddd:eeee:AAAA
            2001:db8:aaaa:bbbb:cccc:dddd:eeee:AaAa",
        ),
        ("2001:db8::2:1", "2001:db8:0:0:0:0:2:1 2001:db8::2:1"),
        ("2001:db8:0:1:1:1:1:1", "2001:db8:0:1:1:1:1:1 2001:db8::1:1:1:1:1"),
        ("2001:0:0:1::1", "2001:0:0:1:0:0:0:1 2001:0:0:1::1 2001::1:0:0:0:1"),
        ("::ffff:c000:201", "0:0:0:0:0:ffff:c000:201 ::FFFF:C000:0201"),
    ] {
        for other in others.split_whitespace() {
            lines.assert_written(&finished(other), &finished(text));
        }
    }
    for dotted in ["::ffff:192.0.2.1", "::192.0.2.1", "64:ff9b::192.0.2.33", "2001:db8:122:344::192.0.2.33"] {
        lines.earn(20, [&finished(dotted)[..]]);
    }
}

/// Section 2.2; and section 2.3 for what is no address.
#[test]
fn the_examples_of_rfc_4291() {
    let mut lines = Lines::new();
    for (text, shown) in [
        ("ABCD:EF01:2345:6789:ABCD:EF01:2345:6789", "abcd:ef01:2345:6789:abcd:ef01:2345:6789"),
        ("2001:DB8:0:0:8:800:200C:417A", "2001:db8::8:800:200c:417a"),
        ("2001:DB8::8:800:200C:417A", "2001:db8::8:800:200c:417a"),
        ("FF01:0:0:0:0:0:0:101", "ff01::101"),
        ("FF01::101", "ff01::101"),
        ("0:0:0:0:0:0:0:1", "::1"),
        ("::1", "::1"),
        ("0:0:0:0:0:0:0:0", "::"),
        ("::", "::"),
    ] {
        lines.assert_written(&finished(text), &finished(shown));
    }
    let dotted = "0:0:0:0:0:0:13.1.68.3 0:0:0:0:0:FFFF:129.144.52.38 ::13.1.68.3 ::FFFF:129.144.52.38";
    let prefixes = "2001:0DB8:0000:CD30:0000:0000:0000:0000/60 2001:0DB8::CD30:0:0:0:0/60 2001:0DB8:0:CD30::/60
        2001:0DB8:0:CD3/60 2001:0DB8::CD30/60 ::/0 ::/128";
    for text in dotted.split_whitespace().chain(prefixes.split_whitespace()) {
        lines.earn(20, [&finished(text)[..]]);
    }
}

// Case by case.

/// At every kind of prefix length, also where the first bits do not count.
#[test]
fn what_is_no_address_is_20() {
    let mut lines = Lines::new();
    let texts = r": ::: :::: 1 1: :1 1:2:3:4:5:6:7 1:2:3:4:5:6:7: :1:2:3:4:5:6:7 1:2:3:4:5:6:7:8: :1:2:3:4:5:6:7:8
        1:2:3:4:5:6:7:8:9 1:2:3:4:5:6:7:8:: ::1:2:3:4:5:6:7:8 1:2:3:4::5:6:7:8 1:2:3:4:5:6:7::8 1::2::3 ::1:: 1:::2 :::1
        1::: ::1: :1:: 12345:: ::12345 00000:: ::00000 1:2:3:4:5:6:7:00008 g:: ::g ::G ::-1 +1:: -1:: 0x1:: ::1.2.3.4
        ::ffff:1.2.3.4 1.2.3.4 ::1.2.3 ::1%1 ::1%eth0 ::1/128 [::1] ::1. ::1, ;; p.a. . \058\058 ::\049 A6 0 128";
    for text in texts.split_whitespace() {
        lines.earn(20, [&finished(text)[..]]);
        for length in [1, 64, 127, 128, 129] {
            lines.earn(20, [&format!("h.a. A6 {length} {text} p.a.")[..]]);
        }
    }
}

/// `::` for every run of one group or more, at every place; for one group it is read and not written.
#[test]
fn two_colons_stand_for_one_group_or_more() {
    let mut lines = Lines::new();
    for begin in 0..8 {
        for end in begin + 1..=8 {
            let group = |at: usize| if (begin..end).contains(&at) { 0 } else { at + 1 };
            let groups: Vec<String> = (0..8).map(|at| group(at).to_string()).collect();
            let short = format!("{}::{}", groups[..begin].join(":"), groups[end..].join(":"));
            let record = lines.record(&finished(&short));
            assert!(lines.record(&finished(&groups.join(":"))) == record, "{short}");
            let shown = if end - begin > 1 { short } else { groups.join(":") };
            lines.assert_shown(&record, &finished(&shown));
        }
    }
}

#[test]
fn groups_have_one_to_four_digits_of_either_case() {
    let mut lines = Lines::new();
    for group in
        (0..0x1_0000).filter(|group: &u32| *group < 0x120 || group.is_multiple_of(257) || group.is_power_of_two())
    {
        let shown = if group == 0 { "::".into() } else { format!("::{group:x}") };
        for text in [format!("{group:x}"), format!("{group:X}"), format!("{group:03x}"), format!("{group:04X}")] {
            lines.assert_written(&finished(&format!("::{text}")), &finished(&shown));
        }
        for text in [format!("{group:05x}"), format!("{group:x}0000"), format!("0x{group:x}")] {
            lines.earn(20, [&finished(&format!("::{text}"))[..]]);
        }
    }
}

/// Every choice of groups that are zero.
#[test]
fn every_pattern_of_zero_groups_is_written_as_std_writes_it() {
    let mut lines = Lines::new();
    for pattern in 0..256_u32 {
        for group in [1, 0x10, 0xfff, 0xfffe] {
            let groups: [u16; 8] = std::array::from_fn(|at| if pattern >> at & 1 == 1 { group } else { 0 });
            let address = Ipv6Addr::from(groups);
            lines.assert_shown(&finished_record(address.to_bits()), &finished(&address.to_string()));
        }
    }
}

/// Of std's forms those with a dotted quad are no forms here.
#[test]
fn addresses_that_std_writes_with_a_dotted_quad_have_none() {
    let mut lines = Lines::new();
    for low in [0, 1, 0xffff, 0x1_0000, 0xc000_0201_u32, u32::MAX] {
        let address = Ipv6Addr::from_bits(0xffff_0000_0000 | low as u128);
        assert!(address.to_string().contains('.'));
        lines.earn(20, [&finished(&address.to_string())[..]]);
        let shown = format!("::ffff:{:x}:{:x}", low >> 16, low & 0xffff);
        lines.assert_shown(&finished_record(address.to_bits()), &finished(&shown));
    }
}

// The vectors.

/// All 145 rows are put.
#[test]
fn rows_of_rfc5952_are_written_and_read() {
    let mut lines = Lines::new();
    let rows = vectors::rows(vectors::RFC5952);
    for row in &rows {
        let [address, text, _differ] = row[..] else { panic!("three columns: {row:?}") };
        let address = u128::from_str_radix(address, 16).expect("an address");
        lines.assert_shown(&finished_record(address), &finished(text));
    }
    assert_eq!(rows.len(), 145);
}

/// All 27 rows are put. Readers differ in one of them, which has five digits.
#[test]
fn rows_of_ip6_read_are_read() {
    let mut lines = Lines::new();
    let (mut read, mut refused) = (0, 0);
    for row in vectors::rows(vectors::IP6_READ) {
        let [text, address, _differ] = row[..] else { panic!("three columns: {row:?}") };
        let text = finished(text.trim_matches('"'));
        if ["refused", "differ"].contains(&address) {
            lines.earn(20, [&text[..]]);
            refused += 1;
        } else {
            assert_eq!(lines.record(&text)[4..20], vectors::octets(address), "{text}");
            read += 1;
        }
    }
    assert_eq!((read, refused), (4, 23));
}

// Against std.

const ADDRESSES: usize = 1_000_000;

/// One in a thousand is made to have a dotted quad in std's form; those are taken out.
#[test]
fn a_million_addresses_are_written_as_std_writes_them() {
    let mut sides = Sides::new(64);
    let mut random = Random::new(101);
    let mut record = lasting(a6_record(&[0], 0, 0, &[]), 300);
    let (mut dotted, mut shortened) = (0, 0);
    for _ in 0..ADDRESSES {
        let mut address = make::address(&mut random);
        if random.once_in(1_000) {
            address = 0xffff_0000_0000 | address as u32 as u128;
        }
        record[4..20].copy_from_slice(&address.to_be_bytes());
        assert_eq!(sides.write_line(&record, [64, 2]), 0);
        let text = Ipv6Addr::from_bits(address).to_string();
        if text.contains('.') {
            dotted += 1;
            continue;
        }
        shortened += text.contains("::") as usize;
        let line = sides.written(sides.counted()[0] as usize);
        let address = line.strip_prefix(b". 300 A6 0 ").and_then(|rest| rest.strip_suffix(b"\n"));
        assert_eq!(address, Some(text.as_bytes()), "{text}");
    }
    println!("{shortened} shortened, {dotted} with a dotted quad taken out");
    assert!(shortened > ADDRESSES / 4 && dotted < ADDRESSES / 500);
}

/// Every form of RFC 4291 without a dotted quad, and such forms with an octet left out, put in or changed.
#[test]
fn a_million_addresses_are_read_as_std_reads_them() {
    let mut sides = Sides::new(RECORD);
    let mut random = Random::new(102);
    let mut line = Vec::new();
    let mut met = Met::default();
    for _ in 0..ADDRESSES {
        line.clear();
        line.extend(b". 300 A6 0 ");
        let begin = line.len();
        let address = make::address(&mut random);
        make::address_text(&mut random, address, &mut line);
        if random.once_in(4) {
            let at = random.between(begin, line.len() - 1);
            let octet = random.pick(b":::00123456789abcdefABCDEFg");
            match random.below(3) {
                0 => line[at] = octet,
                1 => line.insert(at, octet),
                _ => drop(line.remove(at)),
            }
        }
        let expected = std::str::from_utf8(&line[begin..]).expect("text").parse::<Ipv6Addr>().ok();
        line.push(b'\n');
        let number = sides.read_line(&line, [RECORD, 2]);
        assert_eq!(number, if expected.is_some() { 0 } else { 20 }, "{}", line.escape_ascii());
        assert_eq!(sides.out.shown()[4..20], expected.map_or([0; 16], |address| address.octets()));
        met.count(number);
    }
    met.are("addresses", &[0, 20], ADDRESSES / 20);
}
