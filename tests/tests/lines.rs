//! `a6plan_read_line` and `a6plan_write_line` against the reference, the plain rules and the vectors (T-06). Names and
//! addresses in lines have files of their own.

use a6plan_tests::generate::lines::{self as make, of_octets, ones, LINE, OCTETS};
use a6plan_tests::generate::names::Name;
use a6plan_tests::generate::plan::{self, a6_record, dname_record, full_name, lasting, name, LONGEST};
use a6plan_tests::generate::{a6, examples, Random};
use a6plan_tests::lines::{Lines, ROOM};
use a6plan_tests::met::Met;
use a6plan_tests::plain::line as plain;
use a6plan_tests::reference::plan::RECORD;
use a6plan_tests::{ffi, text, vectors};

/// The record of 01's host, and its text.
fn host() -> [u8; RECORD] {
    a6_record(&name("h.a"), 64, 7, &name("p.a"))
}

const HOST: &str = "h.a. 3600 A6 64 ::7 p.a.";

// The line.

#[test]
fn lines_are_written_with_every_field() {
    let mut lines = Lines::new();
    let (owner, target, bits) = (name("h.a"), name("p.a"), text::name(r"\[x5A3/12].a"));
    lines.assert_shown(&host(), HOST);
    lines.assert_shown(&lasting(host(), 300), "h.a. 300 A6 64 ::7 p.a.");
    lines.assert_shown(&a6_record(&owner, 0, 0, &[]), "h.a. 3600 A6 0 ::");
    lines.assert_shown(&a6_record(&owner, 0, 7 << 64, &[]), "h.a. 3600 A6 0 0:0:0:7::");
    lines.assert_shown(&a6_record(&owner, 128, 0, &target), "h.a. 3600 A6 128 :: p.a.");
    lines.assert_shown(&a6_record(&[0], 1, u128::MAX, &[0]), ". 3600 A6 1 7fff:ffff:ffff:ffff:ffff:ffff:ffff:ffff .");
    lines.assert_shown(&a6_record(&bits, 127, 1, &bits), r"\[x5A3/12].a. 3600 A6 127 ::1 \[x5A3/12].a.");
}

#[test]
fn fields_are_parted_by_any_blanks() {
    let mut lines = Lines::new();
    let tabs = HOST.replace(' ', "\t");
    let mixed = "h.a. \t3600\t A6 \t 64\t \t::7\t\tp.a.";
    for text in [HOST, "h.a.  3600   A6    64     ::7      p.a.", &tabs, mixed] {
        assert!(lines.record(text) == host(), "{text:?}");
    }
}

#[test]
fn a_blank_at_the_start_or_before_octet_10_is_20() {
    let mut lines = Lines::new();
    for blank in [" ", "\t", "  ", "\t "] {
        for good in [HOST, "h.a. A6 0 ::", "h.a. A6 128 p.a."] {
            lines.earn(0, [good]);
            lines
                .earn(20, [&format!("{blank}{good}")[..], &format!("{good}{blank}"), &format!("{blank}{good}{blank}")]);
        }
    }
}

/// Other octets that are blank elsewhere part nothing here.
#[test]
fn only_spaces_and_tabs_are_blanks() {
    let mut lines = Lines::new();
    for other in ["\x0b", "\x0c", "\r", "\0", "\u{a0}", "\u{85}", ",", ""] {
        for at in HOST.match_indices(' ').map(|(at, _)| at) {
            lines.earn(20, [&format!("{}{other}{}", &HOST[..at], &HOST[at + 1..])[..]]);
        }
    }
}

/// Left out, put in at every place, and in the place of every octet. After a cut the other octets are still in memory.
#[test]
fn octet_10_stands_once_and_last() {
    let mut lines = Lines::new();
    let good = format!("{HOST}\n").into_bytes();
    assert_eq!(lines.read_plainly(&good), 0);
    for at in 0..good.len() {
        let (before, after) = good.split_at(at);
        assert_eq!(lines.read_plainly(before), 20, "{at} octets");
        assert_eq!(lines.read_plainly(&[before, b"\n", after].concat()), 20, "put in at {at}");
        if after.len() > 1 {
            assert_eq!(lines.read_plainly(&[before, b"\n", &after[1..]].concat()), 20, "in the place of {at}");
        }
    }
    assert_eq!(lines.read_plainly(&good.repeat(2)), 20);
}

#[test]
fn an_empty_line_and_an_empty_slice_are_20() {
    let mut lines = Lines::new();
    for line in [&b""[..], b"\n", b"\n\n", b" \n", b"\t\n", b" ", b"\0", b"\0\n"] {
        assert_eq!(lines.read_plainly(line), 20, "{line:?}");
    }
}

#[test]
fn what_other_zone_files_have_is_20() {
    let mut lines = Lines::new();
    lines
        .earn(20, [&format!("{HOST}\r")[..], &format!("{HOST} ; a host"), &format!("{HOST};"), "; a host", "# a host"]);
    lines.earn(20, ["h.a. 3600 A6 ( 64 ::7 p.a. )", "h.a. 3600 A6 (64 ::7 p.a.)", "(h.a. 3600 A6 64 ::7 p.a.)"]);
    lines.earn(20, ["\"h.a.\" 3600 A6 64 ::7 p.a.", "h.a. \"3600\" A6 64 ::7 p.a.", "h.a. 3600 A6 64 \"::7\" p.a."]);
    lines.earn(20, ["$ORIGIN a.", "$TTL 300", "@ 3600 A6 64 ::7 p.a.", "h.a. 3600 A6 64 ::7 @", "*.a. 3600 A6 0 ::"]);
    lines.earn(20, ["h.a. 3600 IN A6 64 ::7 p.a.", "h.a. IN 3600 A6 64 ::7 p.a.", "h.a. IN A6 64 ::7 p.a."]);
    lines.earn(20, ["h.a. 1h A6 64 ::7 p.a.", " 3600 A6 64 ::7 p.a.", "3600 A6 64 ::7 p.a.", r"h.a. 3600 A6 \# 1 00"]);
    lines.earn(20, ["h.a. 3600 AAAA ::7", "h.a. 3600 DNAME p.a.", "h.a. 3600 PTR p.a.", "h.a. 3600 TYPE38 0 ::"]);
}

#[test]
fn the_type_is_in_capitals() {
    let mut lines = Lines::new();
    for word in ["a6", "A", "6", "A66", "A6.", "AA6", r"\0656", "A\t6", "A-6"] {
        lines.earn(20, [&format!("h.a. 3600 {word} 0 ::")[..], &format!("h.a. {word} 0 ::")]);
    }
    lines.earn(
        20,
        ["h.a. 3600 A60 ::", "h.a. A60 ::", "h.a. 3600A6 0 ::", "h.a.A6 0 ::", "h.a. 3600 0 ::", "h.a. 0 ::"],
    );
}

/// What stands in the second field is a TTL unless it is `A6`.
#[test]
fn a_line_without_a_ttl_has_300() {
    let mut lines = Lines::new();
    lines.assert_written("h.a. A6 64 ::7 p.a.", "h.a. 300 A6 64 ::7 p.a.");
    lines.assert_written("A6. A6 0 ::", "A6. 300 A6 0 ::");
    lines.assert_written("A6.A6. 6 A6 128 A6.", "A6.A6. 6 A6 128 :: A6.");
    lines.earn(20, ["A6 A6 0 ::", "A6 0 ::", "h.a. A6 A6 0 ::", "h.a. 300 300 A6 0 ::", "h.a. A6 300 A6 0 ::"]);
}

#[test]
fn a_field_too_few_or_too_many_is_20() {
    let mut lines = Lines::new();
    for good in [HOST, "h.a. A6 64 ::7 p.a.", "h.a. 3600 A6 0 ::", "h.a. A6 0 ::", "h.a. 3600 A6 128 :: p.a."] {
        let fields: Vec<&str> = good.split(' ').collect();
        for count in 0..fields.len() {
            lines.earn(20, [&fields[..count].join(" ")[..]]);
        }
        for more in ["p.a.", "::", "0", "A6", "."] {
            lines.earn(20, [&format!("{good} {more}")[..]]);
        }
    }
}

// Prefix lengths.

/// Every prefix length, with every bit of the address set.
#[test]
fn the_first_bits_are_cleared_at_every_prefix_length() {
    let mut lines = Lines::new();
    for length in 0..=128 {
        let (target, named) = if length == 0 { ("", vec![]) } else { (" p.a.", name("p.a")) };
        let record = a6_record(&name("h.a"), length, u128::MAX, &named);
        let text = |address: &str| format!("h.a. 3600 A6 {length} {address}{target}");
        assert!(lines.record(&text("ffff:ffff:ffff:ffff:ffff:ffff:ffff:ffff")) == record, "prefix length {length}");
        lines.assert_shown(&record, &text(&plain::address_text(&a6::suffix(length).to_be_bytes())));
    }
}

/// The target is there exactly when the length is not 0, and the address always but at 128.
#[test]
fn the_form_goes_by_the_prefix_length() {
    let mut lines = Lines::new();
    for length in 0..=128 {
        let numbers = match length {
            0 => [20, 0, 20, 20],
            128 => [0, 20, 0, 20],
            _ => [0, 20, 20, 20],
        };
        for (rest, number) in [" ::7 p.a.", " ::7", " p.a.", ""].iter().zip(numbers) {
            lines.earn(number, [&format!("h.a. 3600 A6 {length}{rest}")[..], &format!("h.a. A6 {length}{rest}")]);
        }
    }
}

/// It asks for the form of an ordinary one.
#[test]
fn a_prefix_length_over_128_is_21_in_a_line_of_the_form() {
    let mut lines = Lines::new();
    lines.earn(21, ["h.a. 300 A6 129 ::1 p.a."]);
    lines.earn(20, ["h.a. 300 A6 129 p.a.", "h.a. 300 A6 129 ::1", "h.a. 300 A6 129"]);
    let wide = [8, 16, 32, 64].into_iter().flat_map(|bits| [0, 1, 64, 128].map(|more| (1_u128 << bits) + more));
    for length in (129..=300).chain(wide).map(|length| length.to_string()).chain(["9".repeat(1_000)]) {
        for (rest, number) in
            [("::1 p.a.", 21), ("p.a.", 20), ("::1", 20), ("::1 p.a. q.a.", 20), ("::1.2.3.4 p.a.", 20)]
        {
            lines.earn(number, [&format!("h.a. 300 A6 {length} {rest}")[..]]);
        }
    }
}

/// The number of fields tells whether it is there. Where it is, it is read, and none of its bits counts.
#[test]
fn the_address_may_be_left_out_at_128_alone() {
    let mut lines = Lines::new();
    for rest in ["p.a.", ":: p.a.", "::1 p.a.", "1:2:3:4:5:6:7:8 p.a.", "FFFF::FFFF\tp.a."] {
        lines.assert_written(&format!("h.a. 300 A6 128 {rest}"), "h.a. 300 A6 128 :: p.a.");
    }
    lines.assert_written("h.a. A6 128 .", "h.a. 300 A6 128 :: .");
    lines.earn(20, ["h.a. A6 128 ::", "h.a. A6 128 ::1.2.3.4 p.a.", "h.a. A6 128 p.a. p.a.", "h.a. A6 128 p.a. ::"]);
    lines.earn(20, ["h.a. A6 127 p.a.", "h.a. A6 1 p.a.", "h.a. A6 0 p.a.", "h.a. A6 0"]);
}

// Numbers.

#[test]
fn ttls_go_from_0_to_2147483647() {
    let mut lines = Lines::new();
    for ttl in [0, 1, 9, 10, 299, 300, 301, 999_999_999, 1_000_000_000, LONGEST - 1, LONGEST] {
        lines.assert_shown(&lasting(host(), ttl), &format!("h.a. {ttl} A6 64 ::7 p.a."));
    }
    let wide = (31..128).flat_map(|bits| [0, 1, 300].map(|more| (1_u128 << bits) + more));
    for ttl in wide.map(|ttl| ttl.to_string()).chain(["2147483648".into(), "4294967295".into(), "9".repeat(1_000)]) {
        lines.earn(21, [&format!("h.a. {ttl} A6 64 ::7 p.a.")[..], &format!("h.a. {ttl} A6 0 ::")]);
    }
}

#[test]
fn needless_zeros_and_signs_are_20() {
    let mut lines = Lines::new();
    let wide = "0".repeat(1_000) + "1";
    for number in
        ["00", "01", "000", "0128", "0129", "0300", "+1", "-0", "-1", "1.0", "64.", "1e3", "0x1", "1_0", "1,0", &wide]
    {
        lines.earn(20, [&format!("h.a. {number} A6 64 ::7 p.a.")[..], &format!("h.a. {number} A6 0 ::")]);
        lines.earn(20, [&format!("h.a. 300 A6 {number} ::7 p.a.")[..], &format!("h.a. 300 A6 {number} ::7")]);
    }
}

// The order of refusals.

/// Each field good and with each kind of fault, in every combination.
#[test]
fn of_several_faults_20_hides_21_and_22_and_21_hides_22() {
    let mut lines = Lines::new();
    let (label, run, octets) = ("x".repeat(64) + ".", "\\[x8/1].".repeat(257), of_octets(256, 63));
    let names = [
        ("h.a.", 0),
        ("h.a", 20),
        ("h..a.", 20),
        (r"\[x12/300].", 20),
        (r"\[x9/1].", 20),
        (r"\256.", 21),
        (&label, 22),
        (&run, 22),
        (&octets, 22),
    ];
    let mut met = Met::default();
    let mut judge = |fields: [(&str, u32); 6]| {
        let expected = fields.iter().map(|(_, number)| *number).filter(|number| *number > 0).min().unwrap_or(0);
        let line = fields.map(|(text, _)| text).join(" ") + "\n";
        assert_eq!(lines.read(line.as_bytes()), expected, "{line:?}");
        met.count(expected);
    };
    for owner in names {
        for ttl in [("", 0), ("300", 0), ("0300", 20), ("2147483648", 21)] {
            for kind in [("A6", 0), ("a6", 20)] {
                for length in [("64", 0), ("064", 20), ("129", 21)] {
                    for address in [("::1", 0), ("::1.2.3.4", 20)] {
                        for target in names {
                            judge([owner, ttl, kind, length, address, target]);
                        }
                    }
                }
            }
        }
    }
    met.are("faults together", &[0, 20, 21, 22], 0);
}

/// A fault at the end of a line, or in the same name or label.
#[test]
fn the_whole_line_is_judged_before_the_next_refusal() {
    let mut lines = Lines::new();
    let (long, run, digits) = ("x".repeat(64), ones(256), "0".repeat(65));
    lines.earn(
        20,
        [r"\256. 9999999999 A6 999 ::1 p.a", r"\256. A6 0 :: ", r"\999. A6 128 \999.\12.", r"\256\12. A6 0 ::"],
    );
    lines
        .earn(20, [&format!("{long}. A6 64 ::1 p.a")[..], &format!("{long}. A6 0 :: "), &format!("{long}\\. A6 0 ::")]);
    lines.earn(21, [&format!("{long}. A6 64 ::1 \\256.")[..], &format!("{long}. A6 129 ::1 p.a.")]);
    lines.earn(
        21,
        [&format!("{long}.\\256. A6 0 ::")[..], &format!("\\256{long}. A6 0 ::"), &format!("{long}\\256. A6 0 ::")],
    );
    lines.earn(21, [&format!("{run}.\\[x{digits}]. A6 0 ::")[..], &format!("\\[x{digits}].{run}. A6 0 ::")]);
    lines.earn(20, [&format!("{run}.\\[x{digits}/256]. A6 0 ::")[..], &format!("{run}.{run}.\\[x9/1]. A6 0 ::")]);
}

// Outputs and figures.

#[test]
fn an_output_of_the_octets_of_the_line_is_enough_and_one_less_is_23() {
    let mut lines = Lines::new();
    let bits = text::name(r"\[x5A3/12].a");
    for record in [host(), a6_record(&[0], 0, 0, &[]), a6_record(&bits, 128, 0, &bits), make::longest()] {
        let size = lines.text(&record).len() + 1;
        for out in (0..size.min(100)).chain([size / 2, size - 2, size - 1]) {
            assert_eq!(lines.write(&record, out), 23, "{out} of {size} octets");
        }
        for out in [size, size + 1, size + 2, LINE, ROOM] {
            assert_eq!(lines.write(&record, out), 0, "{out} for {size} octets");
            assert_eq!(lines.written().len(), size);
        }
    }
}

#[test]
fn an_output_of_a_record_is_enough_and_one_octet_less_is_23() {
    let mut lines = Lines::new();
    let good = format!("{HOST}\n").into_bytes();
    for out in 0..RECORD {
        assert_eq!(lines.read_into(&good, out), 23, "{out} octets");
    }
    for out in [RECORD, RECORD + 1, RECORD + 7, 2 * RECORD - 1, 2 * RECORD, 3 * RECORD, ROOM] {
        assert_eq!(lines.read_into(&good, out), 0, "{out} octets");
        assert!(lines.shown() == host());
    }
    // All other refusals of a line come before it.
    let long = format!("{}. A6 0 ::\n", "x".repeat(64));
    for (line, number) in [("h.a A6 0 ::\n", 20), ("", 20), ("\\256. A6 0 ::\n", 21), (&long, 22)] {
        for out in [0, 1, RECORD - 1] {
            assert_eq!(lines.read_into(line.as_bytes(), out), number, "{line:?}");
        }
    }
}

/// Figures of 0 to 4 with calls that earn every number.
#[test]
fn figures_not_of_two_are_5_before_everything_and_all_that_is_lent_is_zero() {
    let Lines(mut sides) = Lines::new();
    let (good, long) = (format!("{HOST}\n"), format!("{}. A6 0 ::\n", "x".repeat(64)));
    let dname = dname_record(&name("h.a"), &name("p.a"));
    let mut met = Met::default();
    for figures in 0..=4 {
        let expected = |number: u32| if figures == 2 { number } else { 5 };
        for (line, out, number) in [
            (&good[..], RECORD, 0),
            (&good, ROOM, 0),
            ("", RECORD, 20),
            ("\\256. A6 0 ::\n", RECORD, 21),
            (&long, RECORD, 22),
            (&good, RECORD - 1, 23),
            (&good, 0, 23),
        ] {
            assert_eq!(
                sides.read_line(line.as_bytes(), [out, figures]),
                expected(number),
                "{line:?}, {figures} figures"
            );
            assert!(expected(number) == 0 || sides.blank());
            met.count(expected(number));
        }
        for (record, out, number) in [
            (&host()[..], good.len(), 0),
            (&host(), ROOM, 0),
            (&dname, ROOM, 2),
            (&[], ROOM, 2),
            (&host(), good.len() - 1, 23),
            (&host(), 0, 23),
        ] {
            assert_eq!(sides.write_line(record, [out, figures]), expected(number), "{record:02x?}, {figures} figures");
            assert!(expected(number) == 0 || sides.blank());
            met.count(expected(number));
        }
    }
    met.are("calls with figures of any length", &[0, 2, 5, 20, 21, 22, 23], 0);
}

// Records to be written.

#[test]
fn only_one_a6_record_in_order_is_written() {
    let mut lines = Lines::new();
    let dname = dname_record(&name("h.a"), &name("p.a"));
    for good in [host(), a6_record(&name("h.a"), 0, 7, &[]), a6_record(&name("h.a"), 128, 0, &[0])] {
        assert_eq!(lines.write(&good, LINE), 0);
        let (more, two) = ([&good[..], &[0]].concat(), good.repeat(2));
        for record in [&good[..0], &good[..1], &good[..532], &good[..RECORD - 1], &good[1..], &more, &two, &dname] {
            for out in [0, LINE] {
                assert_eq!(lines.write(record, out), 2, "{} octets, output of {out}", record.len());
            }
        }
        for field in plan::breakable(&good) {
            let mut bad = good;
            plan::break_field(&mut bad, field);
            for out in [0, LINE] {
                assert_eq!(lines.write(&bad, out), 2, "{field:?}, output of {out}");
            }
        }
    }
}

#[test]
fn records_one_edit_away_from_good_ones() {
    let mut lines = Lines::new();
    let mut random = Random::new(103);
    let bits = text::name(r"\[x5A3/12].a");
    let mut met = Met::default();
    for good in [host(), a6_record(&bits, 0, 7, &[]), a6_record(&bits, 128, 0, &bits), make::longest()] {
        for at in 0..RECORD {
            for octet in [0, 1, 38, 39, 65, 128, 255, random.octet(), good[at] ^ 1, good[at] ^ 0x20] {
                let mut record = good;
                record[at] = octet;
                met.count(lines.write(&record, LINE));
            }
        }
    }
    met.are("records one edit away", &[0, 2], 1_000);
}

// Lines one edit away from good ones.

/// Good lines at the edges of what is read.
fn at_the_edges() -> Vec<String> {
    let (label, full) = ("x".repeat(63), of_octets(255, 63));
    vec![
        HOST.into(),
        "h.a. A6 0 2001:db8::".into(),
        ". 2147483647 A6 128 .".into(),
        "-. 214748364\tA6  12 ::1 _.".into(),
        r"\255.\[xF/4].a. 0 A6 128 ::1 \[x8/1].\[xC/2].".into(),
        r"\199.\[xABC].\000\000. A6 1 1:2:3:4:5:6:7:8 \[x0/3].".into(),
        format!("{label}. A6 10 1::8 {label}.a."),
        format!("{full} A6 128 ."),
        format!(". A6 9 :: {full}"),
        format!("{}. A6 0 ::1", ones(256)),
        format!("{}.{}.a. A6 100 ::1 p.", ones(255), ones(1)),
        format!("{}.\\[x{}/253]. 300 A6 64 :: p.", ones(3), "0".repeat(64)),
    ]
}

/// Each octet left out, each changed, and one put in at each place: every octet in short lines, those that mean something
/// in long ones.
#[test]
fn lines_one_edit_away_from_good_ones() {
    let mut lines = Lines::new();
    let mut met = Met::default();
    let all: Vec<u8> = (0..=255).collect();
    for good in at_the_edges() {
        lines.earn(0, [&good[..]]);
        let good = [good.as_bytes(), b"\n"].concat();
        let octets = if good.len() < 40 { &all } else { OCTETS };
        for at in 0..=good.len() {
            let (before, after) = good.split_at(at);
            let rest = after.get(1..).unwrap_or(&[]);
            met.count(lines.read_plainly(&[before, rest].concat()));
            for octet in octets {
                met.count(lines.read_plainly(&[before, &[*octet], rest].concat()));
                met.count(lines.read_plainly(&[before, &[*octet], after].concat()));
            }
        }
    }
    met.are("lines one edit away", &[0, 20, 21, 22], 100);
}

/// A good line, an edit of it, and what that earns.
#[test]
fn an_edit_of_each_kind_earns_its_number() {
    let mut lines = Lines::new();
    let (label, full, bits) = ("x".repeat(63), of_octets(255, 63), ones(253));
    for (good, edited, number) in [
        ("h.a. A6 0 ::", "h.a A6 0 ::", 20),
        ("h.a. A6 0 ::", "h.. A6 0 ::", 20),
        ("h.a. A6 0 ::", "h.a. A6 0 :", 20),
        ("h.a. A6 0 ::", "h.a. A6 00 ::", 20),
        ("h.a. A6 0 ::", "h.a. a6 0 ::", 20),
        ("h.a. A6 0 ::", "h.a. A6 1 ::", 20),
        ("h.a. A6 0 ::", "h.a.A6 0 ::", 20),
        ("h.a. A6 128 p.a.", "h.a. A6 12 p.a.", 20),
        ("h.a. A6 128 p.a.", "h.a. A6 129 p.a.", 20),
        ("h.a. A6 128 ::1 p.a.", "h.a. A6 129 ::1 p.a.", 21),
        ("h.a. A6 12 ::1 p.a.", "h.a. A6 129 ::1 p.a.", 21),
        ("h.a. 2147483647 A6 0 ::", "h.a. 2147483648 A6 0 ::", 21),
        ("h.a. 2147483647 A6 0 ::", "h.a. 21474836470 A6 0 ::", 21),
        ("h.a. 2147483647 A6 0 ::", "h.a. 2147483647A6 0 ::", 20),
        (r"\255. A6 0 ::", r"\256. A6 0 ::", 21),
        (r"\255. A6 0 ::", r"\25. A6 0 ::", 20),
        (r"\255. A6 0 ::", r"\2550. A6 0 ::", 0),
        (r"\[x8/1]. A6 0 ::", r"\[x9/1]. A6 0 ::", 20),
        (r"\[x8/1]. A6 0 ::", r"\[x8/0]. A6 0 ::", 20),
        (r"\[x8/1]. A6 0 ::", r"\[x8/]. A6 0 ::", 20),
        (r"\[x8/1]. A6 0 ::", r"\[x8/5]. A6 0 ::", 20),
        (r"\[x8/1]. A6 0 ::", r"\[x80/1]. A6 0 ::", 20),
        (&format!("{label}. A6 0 ::"), &format!("{label}x. A6 0 ::"), 22),
        (&format!("{full} A6 0 ::"), &format!("{} A6 0 ::", full.replacen("x.x", "xxx", 1)), 22),
        (&format!("{full} A6 0 ::"), &format!("{}x. A6 0 ::", full.trim_end_matches('.')), 22),
        (&format!("{bits}.\\[x0/3]. A6 0 ::"), &format!("{bits}.\\[x0/4]. A6 0 ::"), 22),
    ] {
        lines.earn(0, [good]);
        lines.earn(number, [edited]);
    }
}

// Long lines.

#[test]
fn the_longest_line_has_2066_octets() {
    let mut lines = Lines::new();
    let name = (r"\255".repeat(63) + ".").repeat(3) + &r"\255".repeat(61) + ".";
    let text = format!("{name} 2147483647 A6 1 7fff:ffff:ffff:ffff:ffff:ffff:ffff:ffff {name}");
    assert_eq!(text.len() + 1, 2_066);
    lines.assert_shown(&make::longest(), &text);
    assert_eq!(lines.write(&make::longest(), LINE), 0);
    assert_eq!(lines.write(&make::longest(), LINE - 1), 23);
    // No longer with other prefix lengths, shorter labels or bit labels.
    for length in 0..=128 {
        for longest in [1, 2, 31, 62, 63] {
            let (name, _) = full_name(longest, 0xff);
            let target = if length == 0 { &[][..] } else { &name };
            let record = lasting(a6_record(&name, length, u128::MAX, target), LONGEST);
            assert!(lines.text(&record).len() < 2_066);
        }
    }
    for count in 1..=256 {
        let mut name = Name::new();
        name.bits(count, &[0xff; 32]);
        let (rest, _) = full_name(63, 0xff);
        let mut left = 254 - name.octets.len();
        while left > 1 {
            let size = if left == 65 { 62 } else { (left - 1).min(63) };
            name.label(&rest[1..][..size]);
            left -= 1 + size;
        }
        name.end();
        assert_eq!(name.octets.len(), 255);
        let record = lasting(a6_record(&name.octets, 1, u128::MAX, &name.octets), LONGEST);
        assert!(lines.text(&record).len() < 2_066);
    }
}

/// There is no limit on the length of a line that is read.
#[test]
fn lines_of_any_length_are_read() {
    let mut lines = Lines::new();
    let blanks = "\t ".repeat(200_000);
    lines.assert_written(&format!("h.a.{blanks}3600{blanks}A6 64 ::7 p.a."), HOST);
    lines.earn(20, [&format!("{HOST}{blanks}")[..], &format!("{blanks}{HOST}")]);
    for (kind, line, number) in make::crafted() {
        assert_eq!(lines.read_plainly(&line), number, "{kind}");
    }
}

// The vectors and the examples of RFC 2874.

/// All 220 rows are put, each as what follows the type. BIND reads needless zeros, other escapes and relative names; it
/// knows no bit labels, and no address at 128.
#[test]
fn rows_of_a6_text_wire_are_read() {
    let mut lines = Lines::new();
    let mut met = Met::default();
    for row in vectors::rows(vectors::A6_TEXT_WIRE) {
        let [kind, text, _verdict, wire, _printed] = row[..] else { panic!("five columns: {row:?}") };
        let number = match text {
            "128 ::1 p.a." | r"64 ::1 \[x1234].ip6.arpa." => 0,
            "129 ::1 p.a." | "4294967296 ::1 p.a." | r"64 ::1 \256.a." => 21,
            "064 ::1 p.a." | r"64 ::1 \p.\a." | r"64 ::1 a\.b.c." | "64 ::1 p" | "64 ::1 @" => 20,
            _ if kind == "refused" => 20 + 2 * text.contains("xxx") as u32,
            _ => 0,
        };
        let text = format!("h.a. 300 A6 {text}");
        lines.earn(number, [&text[..]]);
        met.count(number);
        if number == 0 && wire != "-" {
            let record = lines.shown().to_vec();
            let value = [&record[2..3], &record[4..20], &record[276..532]].concat();
            let (mut data, mut figures) = ([0; 300], [0; 2]);
            assert_eq!(ffi::write(&value, &mut data, &mut figures), 0);
            assert_eq!(data[..figures[0] as usize], vectors::octets(wire), "{text}");
            if kind == "clean" {
                assert_eq!(lines.text(&record), text.replace("A6 128 ", "A6 128 :: "));
            }
        }
    }
    assert_eq!([0, 20, 21, 22].map(|number| met.times(number)), [195, 20, 3, 2]);
}

/// The lines of the file under each heading make the table of that section.
#[test]
fn the_a6_lines_of_rfc_2874_section_5_are_read() {
    let file = include_str!("../data/rfc2874_section_5.txt");
    let mut lines = Lines::new();
    let mut tables: Vec<(&str, Vec<u8>)> = Vec::new();
    for line in file.lines() {
        match line.strip_prefix("# ") {
            Some(heading) => tables.push((heading, vec![])),
            None if line == "#" => {}
            None => tables.last_mut().expect("a heading").1.extend(lines.record(line)),
        }
    }
    tables.retain(|(_, table)| !table.is_empty());
    let expected = [
        ("5.1.1", examples::section_5_1()),
        ("5.1.2, option 1", examples::glue(1)),
        ("5.1.2, option 2", examples::glue(2)),
        ("5.1.2, option 3", examples::glue(3)),
        ("5.1.3", examples::section_5_1_3()),
    ];
    assert!(tables == expected);
}

// Generated lines and records.

/// Lines in each half.
const GENERATED: usize = 250_000;

/// Lines good and damaged, with outputs of several lengths. What is read and written and read again is the same.
fn half(seed: u64) {
    let mut lines = Lines::new();
    let mut random = Random::new(seed);
    let (mut made, mut line) = (Name::new(), Vec::new());
    let mut met = Met::default();
    for case in 0..GENERATED {
        make::any(&mut random, &mut made, &mut line);
        let out = if random.once_in(16) { random.pick(&[0, 1, 535, 537, 1_072]) } else { RECORD };
        let number = lines.read_into(&line, out);
        met.count(number);
        if number == 0 && case % 4 == 0 {
            let record = lines.shown().to_vec();
            assert_eq!(lines.0.write_line(&record, [LINE, 2]), 0);
            let written = lines.written().to_vec();
            assert_eq!(lines.read(&written), 0);
            assert!(lines.shown() == record, "{}", written.escape_ascii());
        }
    }
    met.are("generated lines", &[0, 20, 21, 22, 23], GENERATED / 200);
}

#[test]
fn one_half_of_500_000_generated_lines() {
    half(104);
}

#[test]
fn the_other_half_of_500_000_generated_lines() {
    half(105);
}

const RECORDS: usize = 100_000;

/// Each record is known before it is spelt.
#[test]
fn generated_records_are_read_from_any_spelling_and_from_what_is_written() {
    let mut lines = Lines::new();
    let mut random = Random::new(106);
    let (mut made, mut line) = (Name::new(), Vec::new());
    let (mut others, mut longest) = (0, 0);
    for _ in 0..RECORDS {
        let record = make::good(&mut random, &mut made, &mut line);
        assert_eq!(lines.read(&line), 0, "{}", line.escape_ascii());
        assert!(lines.shown() == record, "{}", line.escape_ascii());
        assert_eq!(lines.write(&record, LINE), 0);
        let written = lines.written().to_vec();
        assert_eq!(lines.read(&written), 0, "{}", written.escape_ascii());
        assert!(lines.shown() == record, "{}", written.escape_ascii());
        others += (written != line) as usize;
        longest = longest.max(written.len());
    }
    println!("{others} are spelt in another way than they are written; the longest has {longest} octets");
    assert!(others > RECORDS / 2 && longest > 1_000);
}

/// Records good and damaged, with outputs of any length.
#[test]
fn generated_records_are_written_or_refused() {
    let mut lines = Lines::new();
    let mut random = Random::new(107);
    let mut made = Name::new();
    let mut met = Met::default();
    for _ in 0..RECORDS {
        let mut record = make::record(&mut random, &mut made).to_vec();
        if random.once_in(2) {
            plan::damage_one(&mut random, &mut made, &mut record);
        }
        if random.once_in(32) {
            record.resize(random.pick(&[0, 1, 532, 535, 537, 2 * RECORD]), 0);
        }
        let size = plain::write(&record).map_or(0, |line| line.len());
        let short = random.below(size + 1);
        let out = random.pick(&[LINE, LINE, size, size.saturating_sub(1), size + 1, short]);
        met.count(lines.write(&record, out));
    }
    met.are("generated records", &[0, 2, 23], RECORDS / 20);
}

/// With octet 10 after the cut and without; the octets after the cut are still in memory.
#[test]
fn every_truncation_of_generated_lines_agrees() {
    let mut lines = Lines::new();
    let mut random = Random::new(108);
    let (mut made, mut line) = (Name::new(), Vec::new());
    for _ in 0..300 {
        make::good(&mut random, &mut made, &mut line);
        for cut in 0..line.len() {
            assert_eq!(lines.read(&line[..cut]), 20, "{cut} octets of {}", line.escape_ascii());
            lines.read(&[&line[..cut], b"\n"].concat());
        }
    }
}
