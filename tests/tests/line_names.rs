//! Names in lines (T-06): ordinary labels, bit labels, and their limits.

use a6plan_tests::ffi;
use a6plan_tests::generate::lines::{self as make, of_octets, ones};
use a6plan_tests::generate::names::{self, Name};
use a6plan_tests::generate::plan::{a6_record, lasting};
use a6plan_tests::generate::Random;
use a6plan_tests::lines::Lines;
use a6plan_tests::met::Met;
use a6plan_tests::vectors;

/// The name earns this number as an owner, and as a target with an address and without.
fn assert_earns(lines: &mut Lines, name: &str, number: u32) {
    for text in [format!("{name} 300 A6 0 ::"), format!("a. 300 A6 64 :: {name}"), format!("a. 300 A6 128 {name}")] {
        assert_eq!(lines.number(&text), number, "{text:?}");
    }
}

/// The name is read, and written so.
fn assert_written(lines: &mut Lines, name: &str, written: &str) {
    let text = format!("{written} 300 A6 128 :: {written}");
    lines.assert_written(&format!("{name} A6 128 {name}"), &text);
    lines.assert_written(&text, &text);
}

// Ordinary labels.

#[test]
fn names_end_in_a_dot_and_have_no_empty_label() {
    let mut lines = Lines::new();
    for name in r". a. a.b. -. _. 0. -_-.A6. \000. \046. a\046.b. \[x8/1]. \[x8/1].a. a.\[x8/1].".split(' ') {
        assert_earns(&mut lines, name, 0);
    }
    let relative = r"a a.b \046 a\046 a.b\046 \[x8/1] a.\[x8/1]";
    let empty = r".. .a. a.. a..b. ... \[x8/1].. .\[x8/1]. a\046..";
    let escaped = r"\. a\. a\.. a\.b. \.a.";
    for name in [relative, empty, escaped].into_iter().flat_map(|names| names.split(' ')) {
        assert_earns(&mut lines, name, 20);
    }
}

/// Every octet in a label, alone and beside others, plain and escaped.
#[test]
fn every_octet_stands_in_labels() {
    let mut lines = Lines::new();
    for octet in 0..=255_u8 {
        let plain = octet.is_ascii_alphanumeric() || octet == b'-' || octet == b'_';
        let shown = if plain { (octet as char).into() } else { format!("\\{octet:03}") };
        for (before, after) in [("", ""), ("x", ""), ("", "y"), ("x", "y")] {
            let label = [before.as_bytes(), &[octet], after.as_bytes()].concat();
            // A dot between others parts two labels.
            let number = if plain || octet == b'.' && before.len() + after.len() == 2 { 0 } else { 20 };
            assert_eq!(lines.read_plainly(&[&label, &b".a. 300 A6 0 ::\n"[..]].concat()), number, "{octet} plain");
            assert_eq!(
                lines.read_plainly(&[b"a. 300 A6 128 b.", &label[..], b".a.\n"].concat()),
                number,
                "{octet} plain"
            );
            let mut name = Name::new();
            name.label(&label);
            name.end();
            let record = lasting(a6_record(&name.octets, 128, 0, &name.octets), 300);
            let text = |octet: &str| format!("{before}{octet}{after}. 300 A6 128 :: {before}{octet}{after}.");
            assert!(lines.record(&text(&format!("\\{octet:03}"))) == record, "{octet} escaped");
            lines.assert_shown(&record, &text(&shown));
        }
    }
}

#[test]
fn an_escape_is_a_backslash_and_three_digits() {
    let mut lines = Lines::new();
    for number in 0..=999 {
        let expected = if number > 255 { 21 } else { 0 };
        for name in [format!("\\{number:03}."), format!("a\\{number:03}b."), format!("\\065\\{number:03}.a.")] {
            assert_earns(&mut lines, &name, expected);
        }
    }
    for name in r"\. \.. \12. \1. \12a. \1a2. \a12. \a. \\. \ \12 \1 \-12. \+12. \0x1. \12\0650. \065\12. \[065. \065]."
        .split(' ')
    {
        assert_earns(&mut lines, name, 20);
    }
    // What follows the three digits stands for itself.
    assert_written(&mut lines, r"\0651.", "A1.");
    assert_written(&mut lines, r"\2551.", r"\2551.");
    assert_written(&mut lines, r"\092\050\053\054.", r"\092256.");
}

#[test]
fn the_case_of_letters_is_kept() {
    let mut lines = Lines::new();
    let letters = "aAbBcCdDeEfFgGhHiIjJkKlLmMnNoOpPqQrRsStTuUvVwWxXyYzZ.Ip6.aRPA.";
    assert_written(&mut lines, letters, letters);
    assert_written(&mut lines, r"\097\065.", "aA.");
}

#[test]
fn labels_of_63_octets_are_taken_and_of_64_refused() {
    let mut lines = Lines::new();
    for octet in ["x", r"\255", r"\065"] {
        for (size, number) in [(62, 0), (63, 0), (64, 22), (65, 22), (250, 22), (1_000, 22)] {
            let label = octet.repeat(size);
            for name in [format!("{label}."), format!("a.{label}.b."), format!("\\[x8/1].{label}.")] {
                assert_earns(&mut lines, &name, number);
            }
        }
    }
}

/// The 255 octets count the merged name: 256 bits are 34 of them, in however many labels they are.
#[test]
fn names_of_255_octets_are_taken_and_of_256_refused() {
    let mut lines = Lines::new();
    let bits = "\\[x8/1].".repeat(256);
    for octets in 250..=260 {
        for longest in [1, 2, 10, 62, 63] {
            // Labels of one octet make names of an odd number of octets.
            let octets = if longest == 1 { octets | 1 } else { octets };
            let number = if octets <= 255 { 0 } else { 22 };
            let labels = of_octets(octets - 34, longest);
            for name in [of_octets(octets, longest), format!("{bits}{labels}"), format!("{labels}{bits}")] {
                assert_earns(&mut lines, &name, number);
            }
        }
    }
    assert_earns(&mut lines, &"a.".repeat(8_000), 22);
}

// Bit labels.

#[test]
fn a_bit_label_is_a_whole_label() {
    let mut lines = Lines::new();
    for label in r"\[x8/1] \[x0/1] \[xC/3] \[xC/4] \[xC] \[xABC/11] \[xAB8/9] \[xabC] \[x00/8] \[x0/2]".split(' ') {
        assert_earns(&mut lines, &format!("{label}.a."), 0);
    }
    let forms = r"\[x] \[] \[x/4] \[x/0] \[X12] \[X12/8] \[12/8] \[b1010/4] \[o17/6] \[1.2.3.4/32] \[x12 \[x12/8 \[x12/] \[x12/8/8]";
    let places = r"\[x12/8]a a\[x12/8] \[x12/8]\[x12/8] \065\[x12] \[x12]\065 \[x12/8]] \[\[x12/8] [x12/8] \[x12/8]]";
    let digits = r"\[xG/4] \[x1g] \[x0x12/8] \[x\0652] \[x-1] \[x+1] \[x1.2] \[x1-2] \[x12/8h] \[x12/a]";
    for label in [forms, places, digits].into_iter().flat_map(|labels| labels.split(' ')) {
        assert_earns(&mut lines, &format!("{label}.a."), 20);
    }
}

/// Every number of digits with the counts near it and others, and every digit as the last one.
#[test]
fn digits_are_as_few_as_hold_the_count_and_unused_bits_are_zero() {
    let mut lines = Lines::new();
    for digits in 1..=66_usize {
        for last in 0..16_u32 {
            let text = format!("{}{last:X}", "5".repeat(digits - 1));
            let near = (4 * digits).saturating_sub(6)..=4 * digits + 2;
            for count in near.chain([0, 1, 256, 260, 300]) {
                let number = match (4 * digits).checked_sub(count) {
                    Some(unused @ 0..4) if last.is_multiple_of(1 << unused) => [0, 21][(count > 256) as usize],
                    _ => 20,
                };
                assert_eq!(lines.number(&format!("\\[x{text}/{count}].a. A6 0 ::")), number, "{text}/{count}");
            }
            let number = if digits > 64 { 21 } else { 0 };
            assert_eq!(lines.number(&format!("\\[x{text}].a. A6 0 ::")), number, "{digits} digits");
        }
    }
}

#[test]
fn a_count_of_0_and_one_that_its_digits_do_not_hold_are_20() {
    let mut lines = Lines::new();
    for label in
        r"\[x12/300] \[x0/0] \[x/0] \[x00/0] \[x12/0] \[x12/4] \[x12/9] \[x1/8] \[x12/256] \[x12/260]".split(' ')
    {
        assert_earns(&mut lines, &format!("{label}."), 20);
        assert_earns(&mut lines, &format!("{label}.a."), 20);
    }
    let wide = [1_u128 << 32, 1 << 64, 1 << 65, (1 << 8) + 8, (1 << 16) + 8, (1 << 32) + 8, (1 << 64) + 8, 1 << 127];
    for count in wide.map(|count| count.to_string()).into_iter().chain(["9".repeat(1_000)]) {
        assert_earns(&mut lines, &format!("\\[x12/{count}].a."), 20);
    }
}

#[test]
fn needless_zeros_and_signs_of_a_count_are_20() {
    let mut lines = Lines::new();
    for count in ["08", "008", "+8", "-8", "0x8", "8.", "", &("0".repeat(1_000) + "8")] {
        assert_earns(&mut lines, &format!("\\[x12/{count}].a."), 20);
    }
}

#[test]
fn sixty_five_digits_are_21_with_and_without_a_count() {
    let mut lines = Lines::new();
    let zeros = "0".repeat(65);
    for digits in [&zeros[..], &"F".repeat(65), &"8".repeat(65)] {
        assert_earns(&mut lines, &format!("\\[x{digits}]."), 21);
        assert_earns(&mut lines, &format!("\\[x{digits}/260].a."), 21);
        assert_earns(&mut lines, &format!("\\[x{digits}/261].a."), 20);
        assert_earns(&mut lines, &format!("\\[x{digits}/256].a."), 20);
    }
    for count in 257..=260 {
        assert_earns(&mut lines, &format!("\\[x{zeros}/{count}].a."), 21);
    }
    assert_earns(&mut lines, &format!("\\[x{}1/257].a.", &zeros[1..]), 20);
    assert_earns(&mut lines, &format!("\\[x{}].a.", "0".repeat(100_000)), 21);
}

#[test]
fn digits_of_either_case_are_written_in_capitals() {
    let mut lines = Lines::new();
    for digits in ["0123456789abcdef", "0123456789ABCDEF", "0123456789aBcDeF"] {
        for count in ["", "/64"] {
            assert_written(&mut lines, &format!("\\[x{digits}{count}].a."), r"\[x0123456789ABCDEF/64].a.");
        }
    }
}

// Runs.

/// The bits of the label on the right come first (01, Errors we have met).
#[test]
fn runs_are_merged_right_bits_first() {
    let mut lines = Lines::new();
    assert_written(&mut lines, r"\[x3/4].\[x5A/8].a.", r"\[x5A3/12].a.");
    assert_written(&mut lines, r"\[x8/1].\[x0/1].\[x0/1].", r"\[x2/3].");
    assert_written(&mut lines, r"a.\[x1].\[x2].b.\[x3].\[x4].", r"a.\[x21/8].b.\[x43/8].");
    assert_written(
        &mut lines,
        r"\[x123456789ABCDEF0/64].\[x0001/16].\[x234500C1CA11/48].IP6.ARPA.",
        r"\[x234500C1CA110001123456789ABCDEF0/128].IP6.ARPA.",
    );
}

/// Each number of bits, in two labels with the cut at every place, and in any number of labels.
#[test]
fn runs_cut_anywhere_are_one_label() {
    let mut lines = Lines::new();
    let mut random = Random::new(100);
    for count in 1..=256 {
        let octets: [u8; 32] = std::array::from_fn(|_| random.octet());
        let mut name = Name::new();
        name.bits(count, &octets);
        name.end();
        let record = lasting(a6_record(&name.octets, 128, 0, &name.octets), 300);
        let text = lines.text(&record);
        lines.assert_shown(&record, &text);
        let label = |from: usize, bits: usize| {
            let digits = names::moved(&octets, from, bits).map(|octet| format!("{octet:02x}")).concat();
            format!("\\[x{}/{bits}].", &digits[..bits.div_ceil(4)])
        };
        for higher in 1..count {
            let name = label(higher, count - higher) + &label(0, higher);
            assert_eq!(lines.read(format!("{name} A6 128 {name}\n").as_bytes()), 0, "{count} bits cut at {higher}");
            assert!(lines.shown() == record, "{count} bits cut at {higher}");
        }
        for _ in 0..20 {
            let mut name = Vec::new();
            make::bits_text(&mut random, count, &octets, &mut name);
            let line = [&name[..], b" A6 128 ", &name, b"\n"].concat();
            assert_eq!(lines.read_plainly(&line), 0, "{}", line.escape_ascii());
            assert!(lines.shown() == record, "{}", line.escape_ascii());
        }
    }
}

#[test]
fn runs_of_256_bits_are_taken_and_of_257_refused() {
    let mut lines = Lines::new();
    let name = |counts: &[usize]| counts.iter().map(|count| ones(*count) + ".").collect::<String>();
    let whole = name(&[256]);
    for counts in [&[256][..], &[1; 256], &[128, 128], &[1, 255], &[255, 1], &[100, 100, 56], &[2; 128]] {
        assert_written(&mut lines, &name(counts), &whole);
    }
    for counts in [&[256, 1][..], &[1, 256], &[1; 257], &[128, 129], &[129, 128], &[255, 2], &[256, 256], &[1; 5_000]] {
        let run = name(counts);
        for name in [run.clone(), format!("a.{run}"), format!("{run}b."), format!("a.{run}b.")] {
            assert_earns(&mut lines, &name, 22);
        }
    }
    // A label between them ends a run.
    let (cut, merged) = (name(&[1; 256]), name(&[256]));
    assert_written(&mut lines, &format!("{cut}a.{cut}b.{cut}"), &format!("{merged}a.{merged}b.{merged}"));
}

// The vectors.

/// All 25 rows are put. The label of 64 octets is 22, every other refusal is 20; what is read is merged.
#[test]
fn rows_of_bitlabel_text_are_read() {
    let mut lines = Lines::new();
    let mut met = Met::default();
    for row in vectors::rows(vectors::BITLABEL_TEXT) {
        let [text, wire, _errno] = row[..] else { panic!("three columns: {row:?}") };
        let number = lines.number(&format!("{text} 300 A6 0 ::"));
        met.count(number);
        if wire == "refused" {
            assert_eq!(number, if text.starts_with("xxx") { 22 } else { 20 }, "{text}");
            continue;
        }
        let (mut standard, mut figures) = ([0; 255], [0; 2]);
        assert_eq!(ffi::standard(&vectors::octets(wire), &mut standard, &mut figures), 0);
        assert_eq!((lines.shown()[20] as u32, &lines.shown()[21..276]), (figures[0], &standard[..]), "{text}");
    }
    assert_eq!([0, 20, 22].map(|number| met.times(number)), [13, 11, 1]);
}
