//! The tables of 01's examples and of RFC 2874, section 5.

use super::plan::{a6_record, dname_record, with_ttls, HOUR, RECORD};
use crate::text::name;
use std::net::Ipv6Addr;

/// An address from its text.
pub fn address(text: &str) -> u128 {
    text.parse::<Ipv6Addr>().expect("an address").to_bits()
}

/// A table of A6 records: owner, prefix length, address, target, which is empty at prefix length 0.
fn a6_table(records: &[(&str, u8, &str, &str)]) -> Vec<u8> {
    let record = |(owner, length, suffix, target): &(&str, u8, &str, &str)| {
        let target = if *length == 0 { vec![] } else { name(target) };
        a6_record(&name(owner), *length, address(suffix), &target)
    };
    records.iter().flat_map(record).collect()
}

/// 01: a host and its prefix, whose record does not last as long.
pub fn host() -> Vec<u8> {
    let table = a6_table(&[("h.a", 64, "::7", "p.a"), ("p.a", 0, "2001:db8:0:5::", "")]);
    with_ttls(table, &[HOUR, 300])
}

/// 01: a record that leads back to its owner.
pub fn loop_of_one() -> Vec<u8> {
    a6_table(&[("x.a", 48, "::1", "x.a"), ("x.a", 0, "2001:db8::", "")])
}

/// 01: a record that its referrer ignores.
pub fn ignored() -> Vec<u8> {
    a6_table(&[
        ("h.a", 48, "::", "p.a"),
        ("p.a", 64, "::1", "q.a"),
        ("p.a", 0, "2001:db8::", ""),
        ("q.a", 0, "2001:db8:1::", ""),
    ])
}

/// Section 5.1.1, the carriers' records.
const CARRIERS: [(&str, u8, &str, &str); 9] = [
    ("SUBSCRIBER-X.IP6.A.NET", 40, "0:0:11::", "A.NET.IP6.C.NET"),
    ("SUBSCRIBER-X.IP6.A.NET", 40, "0:0:11::", "A.NET.IP6.D.NET"),
    ("SUBSCRIBER-X.IP6.B.NET", 40, "0:0:22::", "B-NET.IP6.E.NET"),
    ("A.NET.IP6.C.NET", 28, "0:1:CA00::", "C.NET.ALPHA-TLA.ORG"),
    ("A.NET.IP6.D.NET", 28, "0:2:DA00::", "D.NET.ALPHA-TLA.ORG"),
    ("B-NET.IP6.E.NET", 32, "0:0:EB00::", "E.NET.ALPHA-TLA.ORG"),
    ("C.NET.ALPHA-TLA.ORG", 0, "2345:00C0::", ""),
    ("D.NET.ALPHA-TLA.ORG", 0, "2345:00D0::", ""),
    ("E.NET.ALPHA-TLA.ORG", 0, "2345:000E::", ""),
];

/// Section 5.1.1: the site's four records and the carriers' nine.
pub fn section_5_1() -> Vec<u8> {
    let site = [
        ("N.X.EXAMPLE", 64, "::1234:5678:9ABC:DEF0", "SUBNET-1.IP6.X.EXAMPLE"),
        ("SUBNET-1.IP6.X.EXAMPLE", 48, "0:0:0:1::", "IP6.X.EXAMPLE"),
        ("IP6.X.EXAMPLE", 48, "::", "SUBSCRIBER-X.IP6.A.NET"),
        ("IP6.X.EXAMPLE", 48, "::", "SUBSCRIBER-X.IP6.B.NET"),
    ];
    [a6_table(&site), a6_table(&CARRIERS)].concat()
}

/// Section 5.1.2: the glue of one of the three options, 1 to 3, without the carriers' records.
pub fn glue(option: usize) -> Vec<u8> {
    let (ns1, ns2) = ("NS1.X.EXAMPLE", "NS2.X.EXAMPLE");
    let (a, b) = ("SUBSCRIBER-X.IP6.A.NET", "SUBSCRIBER-X.IP6.B.NET");
    match option {
        1 => a6_table(&[
            (ns1, 64, "::1:11:111:1111", "SUBNET-1.IP6.X.EXAMPLE"),
            (ns2, 64, "::2:22:222:2222", "SUBNET-2.IP6.X.EXAMPLE"),
            ("SUBNET-1.IP6.X.EXAMPLE", 48, "0:0:0:1::", "IP6.X.EXAMPLE"),
            ("SUBNET-2.IP6.X.EXAMPLE", 48, "0:0:0:2::", "IP6.X.EXAMPLE"),
            ("IP6.X.EXAMPLE", 48, "::", a),
            ("IP6.X.EXAMPLE", 48, "::", b),
        ]),
        2 => a6_table(&[
            (ns1, 48, "::1:1:11:111:1111", a),
            (ns1, 48, "::1:1:11:111:1111", b),
            (ns2, 48, "::2:2:22:222:2222", a),
            (ns2, 48, "::2:2:22:222:2222", b),
        ]),
        3 => a6_table(&[
            (ns1, 0, "2345:00C1:CA11:1:1:11:111:1111", ""),
            (ns1, 0, "2345:00D2:DA11:1:1:11:111:1111", ""),
            (ns1, 0, "2345:000E:EB22:1:1:11:111:1111", ""),
            (ns2, 0, "2345:00C1:CA11:2:2:22:222:2222", ""),
            (ns2, 0, "2345:00D2:DA11:2:2:22:222:2222", ""),
            (ns2, 0, "2345:000E:EB22:2:2:22:222:2222", ""),
        ]),
        _ => panic!("three options"),
    }
}

/// Section 5.1.1: the carriers' records alone.
pub fn carriers() -> Vec<u8> {
    a6_table(&CARRIERS)
}

/// Section 5.1.3, the last variation: the bits of each carrier's customers in the customers' own records. The records
/// that it leaves to the reader are put as its three go on.
pub fn section_5_1_3() -> Vec<u8> {
    a6_table(&[
        ("N.X.EXAMPLE", 64, "::1234:5678:9ABC:DEF0", "SUBNET-1.IP6.X.EXAMPLE"),
        ("SUBNET-1.IP6.X.EXAMPLE", 48, "0:0:0:1::", "IP6.X.EXAMPLE"),
        ("IP6.X.EXAMPLE", 40, "0:0:11::", "IP6.A.NET"),
        ("IP6.X.EXAMPLE", 40, "0:0:22::", "IP6.B.NET"),
        ("IP6.A.NET", 28, "0:1:CA00::", "IP6.C.NET"),
        ("IP6.A.NET", 28, "0:2:DA00::", "IP6.D.NET"),
        ("IP6.B.NET", 32, "0:0:EB00::", "IP6.E.NET"),
        ("IP6.C.NET", 0, "2345:00C0::", ""),
        ("IP6.D.NET", 0, "2345:00D0::", ""),
        ("IP6.E.NET", 0, "2345:000E::", ""),
    ])
}

/// Section 5.2: the DNAMEs of all levels.
pub fn section_5_2() -> Vec<[u8; RECORD]> {
    let dnames = [
        (r"\[x234500/24].IP6.ARPA", "IP6.ALPHA-TLA.ORG"),
        (r"\[x267800/24].IP6.ARPA", "IP6.BRAVO-TLA.ORG"),
        (r"\[x29AB00/24].IP6.ARPA", "IP6.CHARLIE-TLA.XY"),
        (r"\[xC/4].IP6.ALPHA-TLA.ORG", "IP6.C.NET"),
        (r"\[xD/4].IP6.ALPHA-TLA.ORG", "IP6.D.NET"),
        (r"\[x0E/8].IP6.ALPHA-TLA.ORG", "IP6.E.NET"),
        (r"\[x1CA/12].IP6.C.NET", "IP6.A.NET"),
        (r"\[x2DA/12].IP6.D.NET", "IP6.A.NET"),
        (r"\[xEB/8].IP6.E.NET", "IP6.B.NET"),
        (r"\[x11/8].IP6.A.NET", "IP6.X.EXAMPLE"),
        (r"\[x22/8].IP6.B.NET", "IP6.X.EXAMPLE"),
        (r"\[x0001/16].IP6.X.EXAMPLE", "SUBNET-1.IP6.X.EXAMPLE"),
    ];
    dnames.iter().map(|(owner, target)| dname_record(&name(owner), &name(target))).collect()
}
