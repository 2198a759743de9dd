//! `a6plan_standard` against the reference, the plain rules and the vectors (01, Names).

use a6plan_tests::generate::names::{self as make, Name};
use a6plan_tests::generate::Random;
use a6plan_tests::lent;
use a6plan_tests::plain::names::{self as plain, Why};
use a6plan_tests::reference::names as reference;
use a6plan_tests::{ffi, vectors};

struct Sides(lent::Sides);

impl Sides {
    fn new() -> Sides {
        Sides(lent::Sides::new(300))
    }

    /// The library's number; all that it left is the reference's.
    fn number(&mut self, name: &[u8], out: usize, figures: usize) -> u32 {
        let library = |out: &mut [u8], figures: &mut [u32]| ffi::standard(name, out, figures);
        let reference = |out: &mut [u8], figures: &mut [u32]| reference::standard(name, out, figures);
        self.0.number([out, figures], library, reference, || format!("{name:02x?}"))
    }

    /// As `number`, with an output of 255 octets and two figures.
    fn usual(&mut self, name: &[u8]) -> u32 {
        self.number(name, 255, 2)
    }

    /// The standard form that the library gives; the name must be accepted.
    fn form(&mut self, name: &[u8]) -> Vec<u8> {
        assert_eq!(self.usual(name), 0, "{name:02x?} is accepted");
        let [length, zero] = self.0.counted();
        assert_eq!(zero, 0);
        self.0.written(length as usize).to_vec()
    }
}

/// A name of bit labels with these counts, all bits set.
fn of_bits(counts: &[usize]) -> Vec<u8> {
    let mut name = Name::new();
    for count in counts {
        name.bits(*count, &[0xff; 32]);
    }
    name.end();
    name.octets
}

/// A name of exactly `total` octets, of ordinary labels with at most `longest` octets.
fn of_length(total: usize, longest: usize) -> Vec<u8> {
    let mut name = Name::new();
    let mut left = total - 1;
    while left > 0 {
        let size = if left - 1 == longest + 1 { longest } else { left.min(longest + 1) };
        name.label(&[b'x'; 63][..size - 1]);
        left -= size;
    }
    name.end();
    assert_eq!(name.octets.len(), total);
    name.octets
}

// The vectors.

/// All 27 rows are put: the parts have the whole as their standard form, and the whole is its own.
#[test]
fn rows_of_bitlabel_merge_have_the_whole_as_their_standard_form() {
    let mut sides = Sides::new();
    let mut used = 0;
    for row in vectors::rows(vectors::BITLABEL_MERGE) {
        let [address, _parts, parts, whole] = row[..] else { panic!("four columns: {row:?}") };
        let whole = vectors::octets(whole);
        assert_eq!(sides.form(&vectors::octets(parts)), whole, "{address}");
        assert_eq!(sides.form(&whole), whole, "{address}");
        used += 1;
    }
    assert_eq!(used, 27);
}

/// All 125 rows are put; the text column is not (no reader of text is built here). Of the 111 names that came back
/// unchanged, 102 are in standard form; the two programs do not merge, so for the other 9 the plain rules give the
/// form. 7 names have unused bits set and are malformed by 01, and their cleared octets are good; 7 are refused.
#[test]
fn rows_of_bitlabel_names_are_taken_or_refused() {
    let mut sides = Sides::new();
    let (mut same, mut merged, mut unused, mut refused) = (0, 0, 0, 0);
    for row in vectors::rows(vectors::BITLABEL_NAMES) {
        let [kind, wire, text, back] = row[..] else { panic!("four columns: {row:?}") };
        let wire = vectors::octets(wire);
        match kind {
            "same" => {
                assert_eq!(wire, vectors::octets(back));
                let form = sides.form(&wire);
                if text.contains("].\\[") {
                    assert_eq!(form, plain::encode(&plain::whole(&wire).expect("a name")), "{text}");
                    assert!(form.len() < wire.len(), "{text}");
                    merged += 1;
                } else {
                    assert_eq!(form, wire, "{text}");
                    same += 1;
                }
            }
            "unused-bits" => {
                let cleared = vectors::octets(back);
                assert_eq!(sides.usual(&wire), 4, "{text}");
                assert_eq!(sides.form(&cleared), cleared, "{text}");
                unused += 1;
            }
            "refused" => {
                assert_eq!(sides.usual(&wire), 4, "{wire:02x?}");
                refused += 1;
            }
            _ => panic!("an unknown kind: {kind}"),
        }
    }
    assert_eq!((same, merged, unused, refused), (102, 9, 7, 7));
}

/// 01, Errors we have met, 1: in RFC 2874's name of 64, 16 and 48 bits the right label's bits come first.
#[test]
fn the_name_of_64_16_and_48_bits_merges_with_the_right_bits_first() {
    let mut sides = Sides::new();
    let mut parts = Name::new();
    parts.bits(64, &[0x0a, 0x00, 0x20, 0xff, 0xfe, 0x81, 0x2b, 0x32]);
    parts.bits(16, &[0x00, 0x09]);
    parts.bits(48, &[0x3f, 0xfe, 0x07, 0xc0, 0x00, 0x40]);
    parts.label(b"IP6");
    parts.label(b"ARPA");
    parts.end();
    let mut whole = Name::new();
    let address = [0x3f, 0xfe, 0x07, 0xc0, 0x00, 0x40, 0x00, 0x09, 0x0a, 0x00, 0x20, 0xff, 0xfe, 0x81, 0x2b, 0x32];
    whole.bits(128, &address);
    whole.label(b"IP6");
    whole.label(b"ARPA");
    whole.end();
    assert_eq!(sides.form(&parts.octets), whole.octets);
}

// Case by case.

#[test]
fn the_root_and_short_names_are_their_own_standard_form() {
    let mut sides = Sides::new();
    for name in [&[0][..], &[1, b'a', 0], &[1, 0, 0], &[65, 1, 0x80, 0], &[65, 8, 0xff, 1, 65, 65, 1, 0, 0]] {
        assert_eq!(sides.form(name), name);
    }
}

#[test]
fn no_octets_are_no_name() {
    assert_eq!(Sides::new().usual(&[]), 4);
}

#[test]
fn bits_move_by_every_distance_when_two_labels_merge() {
    let mut sides = Sides::new();
    let mut random = Random::new(1);
    for right in 1..=255 {
        for left in 1..=256 - right {
            let octets: Vec<u8> = (0..64).map(|_| random.octet()).collect();
            let mut name = Name::new();
            name.bits(left, &octets[..32]);
            name.bits(right, &octets[32..]);
            name.end();
            let form = sides.form(&name.octets);
            assert_eq!(form[1] as usize, (left + right) % 256);
        }
    }
}

#[test]
fn a_run_of_256_bits_is_taken_and_257_are_refused() {
    let mut sides = Sides::new();
    let whole = of_bits(&[256]);
    assert_eq!(whole[1], 0);
    for counts in [&[256][..], &[128, 128], &[1, 255], &[255, 1], &[100, 100, 56], &[200, 20, 30, 5, 1]] {
        assert_eq!(sides.form(&of_bits(counts)), whole, "{counts:?}");
    }
    for counts in [&[256, 1][..], &[1, 256], &[128, 129], &[129, 128], &[255, 2], &[100, 100, 57], &[256, 256]] {
        assert_eq!(sides.usual(&of_bits(counts)), 4, "{counts:?}");
    }
    assert_eq!(sides.form(&of_bits(&[1; 84])), of_bits(&[84]));
}

#[test]
fn an_ordinary_label_ends_a_run() {
    let mut sides = Sides::new();
    let mut name = Name::new();
    name.bits(256, &[0x5a; 32]);
    name.label(b"a");
    name.bits(256, &[0xa5; 32]);
    name.end();
    assert_eq!(sides.form(&name.octets), name.octets);
}

/// What follows the first octet is what it would need as the length of an ordinary label, and as a bit label.
#[test]
fn every_first_octet_is_judged_at_the_beginning_and_after_each_kind_of_label() {
    let mut sides = Sides::new();
    for before in [&[][..], &[1, b'a'], &[65, 3, 0xe0], &[65, 8, 0x41, 2, b'b', 0]] {
        for first in 0..=255_u8 {
            let labelled = [before, &[first], &[b'x'; 255][..first as usize], &[0]].concat();
            let labelled = if first == 0 { &labelled[..labelled.len() - 1] } else { &labelled };
            let expected = if first < 64 { 0 } else { 4 };
            assert_eq!(sides.usual(labelled), expected, "first octet {first} after {before:02x?}, then a label");
            if first >= 64 {
                let bits = [before, &[first], &[16, 0xfe, 0xdc, 1, b'a', 0]].concat();
                let expected = if first == 65 { 0 } else { 4 };
                assert_eq!(sides.usual(&bits), expected, "first octet {first} after {before:02x?}, then bits");
            }
        }
    }
}

/// The octets after a cut are still in memory, so that a reader who went on would find a whole name.
#[test]
fn every_count_octet_with_every_truncation_and_one_octet_over() {
    let mut sides = Sides::new();
    for before in [&[][..], &[3, b'a', b'b', b'c'], &[65, 5, 0xa8]] {
        for count in 1..=256 {
            let run_over = !before.is_empty() && before[0] == 65 && count + 5 > 256;
            for filling in [0, 0xff, 0x6b] {
                let mut label = Name::new();
                label.bits(count, &[filling; 32]);
                let whole = [before, &label.octets, &[0]].concat();
                let over = [&whole[..], &[0]].concat();
                for cut in 0..whole.len() {
                    assert_eq!(sides.usual(&over[..cut]), 4, "{cut} octets of {whole:02x?}");
                }
                assert_eq!(sides.usual(&over[..whole.len()]), if run_over { 4 } else { 0 }, "{whole:02x?}");
                assert_eq!(sides.usual(&over), 4, "{whole:02x?} and one octet");
            }
        }
    }
}

#[test]
fn every_unused_bit_of_every_count_is_refused_when_set() {
    let mut sides = Sides::new();
    for count in 1..=256_usize {
        let mut label = Name::new();
        label.bits(count, &[0; 32]);
        label.end();
        let last = label.octets.len() - 2;
        for unused in 0..(8 - count % 8) % 8 {
            let mut name = label.octets.clone();
            name[last] |= 1 << unused;
            assert_eq!(sides.usual(&name), 4, "bit {unused} of {name:02x?}");
            name[last] = 0xff << ((8 - count % 8) % 8);
            assert_eq!(sides.form(&name), name);
        }
    }
}

#[test]
fn names_of_253_to_255_octets_are_taken_and_of_256_to_258_refused() {
    let mut sides = Sides::new();
    for total in 253..=258 {
        let expected = if total <= 255 { 0 } else { 4 };
        for longest in [1, 2, 3, 10, 31, 62, 63] {
            if longest == 1 && total % 2 == 0 {
                continue;
            }
            let name = of_length(total, longest);
            assert_eq!(sides.usual(&name), expected, "{total} octets, labels of {longest}");
            for cut in total - 70..total {
                assert_eq!(sides.usual(&name[..cut]), 4, "{cut} of {total} octets, labels of {longest}");
            }
            let over = [&name[..], &[0]].concat();
            assert_eq!(sides.usual(&over), 4, "{total} octets and one over");
        }
    }
}

/// The 255 octets count the name as given, before merging (docs/DECISIONS.md).
#[test]
fn names_of_253_to_258_octets_whose_merged_form_is_shorter() {
    let mut sides = Sides::new();
    for total in 253..=258 {
        for first in [true, false] {
            let bits = of_bits(&[8, 16, 8, 3, 1]);
            let bits = &bits[..bits.len() - 1];
            let labels = of_length(total - bits.len(), 63);
            let labels = &labels[..labels.len() - 1];
            let name = if first { [bits, labels, &[0]].concat() } else { [labels, bits, &[0]].concat() };
            assert_eq!(name.len(), total);
            if total <= 255 {
                assert_eq!(sides.form(&name).len(), total - 16 + 7, "{total} octets");
            } else {
                assert_eq!(sides.usual(&name), 4, "{total} octets");
            }
        }
    }
}

/// A label that begins within 255 octets and ends beyond them, with and without the octets it needs.
#[test]
fn a_last_label_of_every_size_across_octet_255() {
    let mut sides = Sides::new();
    for before in 190..=254 {
        if before % 2 != 0 {
            continue;
        }
        let labels = of_length(before + 1, 1);
        for size in 1..=63 {
            let last = [&[size as u8][..], &[b'z'; 63][..size], &[0]].concat();
            let name = [&labels[..before], &last].concat();
            let expected = if name.len() <= 255 { 0 } else { 4 };
            assert_eq!(sides.usual(&name), expected, "{before} octets and a label of {size}");
        }
        for count in 1..=256 {
            let name = [&labels[..before], &of_bits(&[count])].concat();
            let expected = if name.len() <= 255 { 0 } else { 4 };
            assert_eq!(sides.usual(&name), expected, "{before} octets and {count} bits");
        }
    }
}

/// Letters of either case count alike where names are compared (T-03); the standard form keeps them as they are.
#[test]
fn the_standard_form_keeps_the_case_of_letters() {
    let mut sides = Sides::new();
    let label = b"aAbBcCdDeEfFgGhHiIjJkKlLmMnNoOpPqQrRsStTuUvVwWxXyYzZ";
    let (mut name, mut parts, mut whole) = (Name::new(), Name::new(), Name::new());
    name.label(label);
    parts.bits(8, &[0x61]);
    parts.bits(8, &[0x41]);
    whole.bits(16, &[0x41, 0x61]);
    for name in [&mut name, &mut parts, &mut whole] {
        name.label(label);
        name.label(b"Ip6");
        name.label(b"aRPA");
        name.end();
    }
    assert_eq!(sides.form(&name.octets), name.octets);
    assert_eq!(sides.form(&parts.octets), whole.octets);
    assert_eq!(sides.form(&whole.octets), whole.octets);
}

/// Names respelt in letters and in bit labels.
const RESPELT: usize = 50_000;

#[test]
fn generated_names_respelt_keep_the_case_of_letters() {
    let mut sides = Sides::new();
    let mut random = Random::new(7);
    let mut name = Name::new();
    let mut others = 0;
    for _ in 0..RESPELT {
        make::standard(&mut random, &mut name);
        let respelt = make::in_either_case(&mut random, &name.octets);
        assert_eq!(sides.form(&respelt), respelt);
        let parts = make::respelt(&mut random, &name.octets);
        let form = sides.form(&parts);
        assert_eq!(sides.0.answer(0), plain::standard(&parts, 255, 2), "{parts:02x?}");
        assert!(plain::same(&plain::whole(&form).expect("a name"), &plain::whole(&name.octets).expect("a name")));
        others += (form != name.octets) as usize;
    }
    assert!(others > RESPELT / 2, "{others} are spelt in another way");
}

// Outputs.

const NAMES: [&[u8]; 5] = [&[0], &[1, b'a', 0], &[65, 1, 0x80, 65, 2, 0x40, 0], &[], &[65, 1, 0x40, 0]];

#[test]
fn an_output_not_of_255_octets_is_refused_after_a_bad_name() {
    let mut sides = Sides::new();
    for out in [0, 1, 2, 16, 254, 256, 257, 300] {
        for name in NAMES {
            let expected = if reference::scan(name).number == 0 { 5 } else { 4 };
            assert_eq!(sides.number(name, out, 2), expected, "output of {out} for {name:02x?}");
        }
    }
}

#[test]
fn figures_not_of_two_are_refused_where_an_output_would_be() {
    let mut sides = Sides::new();
    for out in [0, 1, 254, 255, 256] {
        for figures in [0, 1, 2, 3, 4] {
            for name in NAMES {
                let good = reference::scan(name).number == 0;
                let expected = if !good {
                    4
                } else if out != 255 || figures != 2 {
                    5
                } else {
                    0
                };
                assert_eq!(sides.number(name, out, figures), expected, "{figures} figures, output of {out}");
            }
        }
    }
}

// Generated names.

const GENERATED: usize = 300_000;

/// Library, reference and plain rules agree on every octet, and the names are of every kind: each reason for a
/// refusal, octets left over, names that merge and names in standard form all come up often.
#[test]
fn generated_names_agree_octet_for_octet() {
    let mut sides = Sides::new();
    let mut random = Random::new(2);
    let mut name = Name::new();
    let (mut merged, mut standard, mut left_over) = (0, 0, 0);
    let mut refused = [0; 6];
    for _ in 0..GENERATED {
        make::any(&mut random, &mut name);
        let octets = &name.octets[..];
        let number = sides.usual(octets);
        assert_eq!(sides.0.answer(number), plain::standard(octets, 255, 2), "{octets:02x?}");
        match plain::read(octets) {
            Err(why) => refused[why as usize] += 1,
            Ok((_, used)) if used < octets.len() => left_over += 1,
            Ok((_, used)) if sides.0.counted()[0] as usize == used => standard += 1,
            Ok(_) => merged += 1,
        }
    }
    println!("merged {merged}, standard {standard}, left over {left_over}, refused {refused:?}");
    assert!(merged > GENERATED / 10 && standard > GENERATED / 10 && left_over > GENERATED / 20);
    for why in
        [Why::FirstOctetMissing, Why::BadFirstOctet, Why::BeyondTheEnd, Why::TooLong, Why::UnusedBits, Why::LongRun]
    {
        assert!(refused[why as usize] > GENERATED / 100, "{why:?} comes up {} times", refused[why as usize]);
    }
}

#[test]
fn generated_names_agree_with_outputs_and_figures_of_other_lengths() {
    let mut sides = Sides::new();
    let mut random = Random::new(3);
    let mut name = Name::new();
    for _ in 0..50_000 {
        make::any(&mut random, &mut name);
        let out = random.pick(&[0, 1, 2, 100, 254, 255, 256, 300]);
        let figures = random.pick(&[0, 1, 2, 2, 2, 3, 4]);
        let number = sides.number(&name.octets, out, figures);
        assert_eq!(number, plain::standard(&name.octets, out, figures).0);
    }
}

/// Every truncation of generated names; the octets after the cut are still in memory.
#[test]
fn every_truncation_of_generated_names_agrees() {
    let mut sides = Sides::new();
    let mut random = Random::new(4);
    let mut name = Name::new();
    for _ in 0..1_500 {
        make::good(&mut random, &mut name);
        for cut in 0..name.octets.len() {
            assert_eq!(sides.usual(&name.octets[..cut]), 4, "{cut} octets of {:02x?}", name.octets);
        }
        assert_eq!(sides.usual(&name.octets), 0, "{:02x?}", name.octets);
    }
}

#[test]
fn standard_forms_are_their_own_and_never_longer() {
    let mut sides = Sides::new();
    let mut random = Random::new(5);
    let mut name = Name::new();
    for _ in 0..50_000 {
        make::good(&mut random, &mut name);
        let form = sides.form(&name.octets);
        assert!(form.len() <= name.octets.len(), "{:02x?}", name.octets);
        assert_eq!(sides.form(&form), form);
    }
}

/// Names of the same units: each bit label of a good name cut in two at any place has the same standard form.
#[test]
fn cutting_bit_labels_in_two_keeps_the_standard_form() {
    let mut sides = Sides::new();
    let mut random = Random::new(6);
    let mut name = Name::new();
    let mut cut_names = 0;
    while cut_names < 20_000 {
        make::good(&mut random, &mut name);
        let mut parts = Name::new();
        let mut cuts = 0;
        for start in &name.starts {
            let label = &name.octets[*start..];
            match label[0] {
                0 => parts.end(),
                65 if label[1] != 1 => {
                    let count = if label[1] == 0 { 256 } else { label[1] as usize };
                    let bit = |at: usize| label[2 + at / 8] >> (7 - at % 8) & 1;
                    let higher = random.between(1, count - 1);
                    let (mut left, mut right) = ([0; 32], [0; 32]);
                    for at in 0..count {
                        let (side, place) = if at < higher { (&mut right, at) } else { (&mut left, at - higher) };
                        side[place / 8] |= bit(at) << (7 - place % 8);
                    }
                    parts.bits(count - higher, &left);
                    parts.bits(higher, &right);
                    cuts += 1;
                }
                65 => parts.bits(1, &label[2..]),
                length => parts.label(&label[1..1 + length as usize]),
            }
        }
        if cuts > 0 && parts.octets.len() <= 255 {
            assert_eq!(sides.form(&parts.octets), sides.form(&name.octets), "{:02x?}", parts.octets);
            cut_names += 1;
        }
    }
}
