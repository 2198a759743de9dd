//! Which names are the same (01, Names; T-03), as each function that compares names shows it: letters inside ordinary
//! labels count alike in either case, and nothing else does.

use a6plan_tests::generate::names::{self as make, Name};
use a6plan_tests::generate::plan::{a6_record, dname_record, full_name, name};
use a6plan_tests::generate::Random;
use a6plan_tests::plain::names::{below, encode, same, whole};
use a6plan_tests::reference::plan::{FIGURES, RECORD};
use a6plan_tests::{ffi, lent, text};

/// A name that none of the others here is, as an owner, a target or the end of a walk.
const ANOTHER: &str = "another.name.than.these";

struct Sides(lent::Sides);

/// One way to see whether two names in standard form are the same.
type Way = fn(&mut Sides, &[u8], &[u8]) -> bool;

/// The ways that any two names can be put to.
const WAYS: [(&str, Way); 6] = [
    ("two DNAMEs", Sides::share_an_owner),
    ("a given name and an owner", Sides::is_found),
    ("a target and an owner", Sides::leads_on),
    ("a given name and an owner, collapsed", Sides::is_collapsed),
    ("a target and an owner, collapsed", Sides::takes_a_place),
    ("a target and a given name, collapsed", Sides::is_reviving),
];

impl Sides {
    fn new() -> Sides {
        Sides(lent::Sides::new(2 * RECORD))
    }

    /// 3 for two DNAMEs with these owners.
    fn share_an_owner(&mut self, one: &[u8], other: &[u8]) -> bool {
        let table = [one, other].map(|owner| dname_record(owner, &name(ANOTHER))).concat();
        let number = self.0.check(&table, 2);
        assert!(number == 0 || number == 3, "{one:02x?} and {other:02x?} earn {number}");
        number == 3
    }

    /// How many addresses a lookup finds in a table.
    fn addresses(&mut self, table: &[u8], name: &[u8]) -> u32 {
        assert_eq!(self.0.lookup(table, name, 9, [16, 1, FIGURES]), 0, "{name:02x?}");
        self.0.counted()[0]
    }

    /// A lookup of the second name finds a record of the first.
    fn is_found(&mut self, one: &[u8], other: &[u8]) -> bool {
        self.addresses(&a6_record(one, 0, 7, &[]), other) == 1
    }

    /// A chain goes on from a record with the first name as its target to a record of the second.
    fn leads_on(&mut self, one: &[u8], other: &[u8]) -> bool {
        let table = [a6_record(&name(ANOTHER), 64, 7, one), a6_record(other, 0, 5 << 64, &[])].concat();
        self.addresses(&table, &name(ANOTHER)) == 1
    }

    /// The number for a collapse and the records after it.
    fn collapse(&mut self, table: &[u8], name: &[u8]) -> (u32, usize) {
        let number = self.0.collapse(table, name, [2 * RECORD, FIGURES]);
        (number, self.0.counted()[0] as usize)
    }

    /// A collapse of the second name replaces a record of the first, here by nothing.
    fn is_collapsed(&mut self, one: &[u8], other: &[u8]) -> bool {
        let (number, records) = self.collapse(&a6_record(one, 64, 7, &name(ANOTHER)), other);
        assert_eq!(number, 0);
        records == 0
    }

    /// A record of the second name takes the place of a record with the first as its target.
    fn takes_a_place(&mut self, one: &[u8], other: &[u8]) -> bool {
        let table = [a6_record(&name(ANOTHER), 64, 7, one), a6_record(other, 0, 5 << 64, &[])].concat();
        let (number, records) = self.collapse(&table, &name(ANOTHER));
        assert_eq!(number, 0);
        records == 2
    }

    /// 9 for the second name, since a record with the first as its target is shorter than one of the second.
    fn is_reviving(&mut self, one: &[u8], other: &[u8]) -> bool {
        let table = [a6_record(&name(ANOTHER), 48, 7, one), a6_record(other, 64, 7, &name(ANOTHER))].concat();
        let (number, _) = self.collapse(&table, other);
        assert!(number == 0 || number == 9, "{number}");
        number == 9
    }

    /// A walk comes to the first name, with an address below it, and is rewritten by a DNAME of the second. They have
    /// as many units; the first is short enough.
    fn is_rewritten(&mut self, one: &[u8], other: &[u8]) -> bool {
        let table = [dname_record(&name("IP6.ARPA"), one), dname_record(other, &name(ANOTHER))].concat();
        let number = self.0.reverse(&table, &[0; 16], 9, [255, FIGURES]);
        assert_eq!(number, 0, "{one:02x?} and {other:02x?}");
        self.0.counted()[1] == 2
    }

    /// All ways say of two names, in both orders, whether they are the same.
    fn assert_all(&mut self, one: &[u8], other: &[u8], expected: bool) {
        for (one, other) in [(one, other), (other, one)] {
            for (way, is) in WAYS {
                assert_eq!(is(self, one, other), expected, "{way}: {one:02x?} and {other:02x?}");
            }
            if can_be_walked(one, other) {
                assert_eq!(self.is_rewritten(one, other), expected, "a walk: {one:02x?} and {other:02x?}");
            }
        }
    }
}

/// Whether the two can be put to `is_rewritten`: they have as many units, and at least one; the first does not lead back
/// to the beginning of the walk, and with 128 bits below it has no run over 256 bits and at most 255 octets.
fn can_be_walked(one: &[u8], other: &[u8]) -> bool {
    let [ones, others, tree] = [one, other, &name("IP6.ARPA")].map(|name| whole(name).expect("a name"));
    let fits = one.len() <= 255 - 18 && (one[0] != 65 || (1..=128).contains(&one[1]));
    ones.len() == others.len() && !ones.is_empty() && below(&ones, &tree).is_none() && fits
}

/// A name of one label of these octets.
fn label(octets: &[u8]) -> Vec<u8> {
    let mut name = Name::new();
    name.label(octets);
    name.end();
    name.octets
}

// Letters.

/// All 65,536 pairs of octets: 256 equal themselves, and 26 capitals their small letters, in both orders.
#[test]
fn of_all_pairs_of_octets_only_letters_equal_their_other_case() {
    let mut sides = Sides::new();
    let mut equal = 0;
    for one in 0..=255_u8 {
        for other in 0..=255_u8 {
            let letters = one ^ other == 0x20 && (one | 0x20).is_ascii_lowercase();
            let expected = one == other || letters;
            let names = [label(&[one]), label(&[other])];
            for (way, is) in WAYS {
                assert_eq!(is(&mut sides, &names[0], &names[1]), expected, "{way}: {one:#04x} and {other:#04x}");
            }
            assert_eq!(sides.is_rewritten(&names[0], &names[1]), expected, "a walk: {one:#04x} and {other:#04x}");
            equal += expected as usize;
        }
    }
    assert_eq!(equal, 256 + 2 * 26);
}

/// Octets that differ in the bit that is a letter's case: the first and last letters, and those beside them.
const EDGES: [(u8, u8, bool); 12] = [
    (0x40, 0x60, false),
    (0x41, 0x61, true),
    (0x5a, 0x7a, true),
    (0x5b, 0x7b, false),
    (0x5f, 0x7f, false),
    (0x00, 0x20, false),
    (0x10, 0x30, false),
    (0x80, 0xa0, false),
    (0xc0, 0xe0, false),
    (0xc1, 0xe1, false),
    (0xda, 0xfa, false),
    (0xdf, 0xff, false),
];

/// In labels long and short, at each place of a name of 255 octets.
#[test]
fn letters_equal_their_other_case_at_every_place_and_the_octets_beside_them_nowhere() {
    let mut sides = Sides::new();
    for longest in [1, 2, 63] {
        let (filled, places) = full_name(longest, b'f');
        for place in places {
            for (one, other, expected) in EDGES {
                let names = [one, other].map(|octet| {
                    let mut name = filled.clone();
                    name[place] = octet;
                    name
                });
                for (way, is) in WAYS {
                    let said = is(&mut sides, &names[0], &names[1]);
                    assert_eq!(said, expected, "{way}: {one:#04x} and {other:#04x} at {place}");
                }
            }
        }
    }
}

#[test]
fn every_letter_may_be_in_either_case() {
    let mut sides = Sides::new();
    let mut random = Random::new(71);
    let (small, capital) = ("abcdefghijklmnopqrstuvwxyz", "ABCDEFGHIJKLMNOPQRSTUVWXYZ");
    sides.assert_all(&name(small), &name(capital), true);
    sides.assert_all(&name("ip6.example"), &name("IP6.EXAMPLE"), true);
    let long = text::name(r"\[xABCD/16].h-1.\[x61/8].Site.EXAMPLE.\200\225");
    for _ in 0..1_000 {
        sides.assert_all(&long, &make::in_either_case(&mut random, &long), true);
    }
    let (full, _) = full_name(63, b'f');
    for _ in 0..100 {
        sides.assert_all(&full, &make::in_either_case(&mut random, &full), true);
    }
}

/// One letter that is another letter, among letters in either case.
#[test]
fn names_that_differ_in_a_letter_are_not_the_same() {
    let mut sides = Sides::new();
    for (one, other) in [
        ("a", "B"),
        ("ab", "AC"),
        ("ip6.example", "IP6.EXAMPLF"),
        ("ip6.example", "IP7.EXAMPLE"),
        ("a.b", "A.B.c"),
        ("a.b", "AB"),
        ("a.bc", "AB.C"),
        ("ab", r"A\."),
        ("a", r"\[x4/2]"),
        ("a", ""),
    ] {
        sides.assert_all(&text::name(one), &text::name(other), false);
    }
}

// What is no letter inside an ordinary label.

/// Bits whose octets are those of letters, at the beginning, in the middle and at the end of bit labels.
#[test]
fn bits_that_look_like_letters_have_no_case() {
    let mut sides = Sides::new();
    for (one, other) in [
        (r"\[x41/8]", r"\[x61/8]"),
        (r"\[x41/8].a", r"\[x61/8].A"),
        (r"h.\[x41/8].a", r"h.\[x61/8].a"),
        (r"\[x5A/7].a", r"\[x7A/7].a"),
        (r"\[x4/3].a", r"\[x6/3].a"),
        (r"\[x416263/24].a", r"\[x616263/24].a"),
        (r"\[x414243/24].a", r"\[x414263/24].a"),
        (r"\[x41424344454647484950515253545556/128].IP7", r"\[x41424344454647484970515253545556/128].IP7"),
    ] {
        let (one, other) = (text::name(one), text::name(other));
        sides.assert_all(&one, &other, false);
        sides.assert_all(&one, &one, true);
        sides.assert_all(&other, &other, true);
    }
    // Each octet of a label of 256 bits in turn.
    for at in 0..32 {
        let names = [0x41, 0x61].map(|octet| {
            let mut octets = [0x41; 32];
            octets[at] = octet;
            let mut name = Name::new();
            name.bits(256, &octets);
            name.label(b"a");
            name.end();
            name.octets
        });
        sides.assert_all(&names[0], &names[1], false);
    }
}

/// Around a bit label the labels have their case: the one before it, and the one after it.
#[test]
fn labels_beside_bits_have_their_case() {
    let mut sides = Sides::new();
    for (one, other) in [
        (r"\[x41/8].a", r"\[x41/8].A"),
        (r"h.\[x61/8]", r"H.\[x61/8]"),
        (r"a.\[x41/8].a.\[x614161/24].b", r"A.\[x41/8].A.\[x614161/24].B"),
    ] {
        sides.assert_all(&text::name(one), &text::name(other), true);
    }
}

/// 65 bits and 97 bits: all octets of the two names agree but for the count, an A and an a.
#[test]
fn counts_of_bits_that_look_like_letters_have_no_case() {
    let mut sides = Sides::new();
    let bits = [0x80; 9];
    let fewer = [&[65, 65][..], &bits, &[3, b'x', b'x', 0x80, 0]].concat();
    let more = [&[65, 97][..], &bits, &[3, b'x', b'x', 0x80, 0]].concat();
    assert_eq!((whole(&fewer).expect("a name").len(), whole(&more).expect("a name").len()), (66, 97));
    sides.assert_all(&fewer, &more, false);
}

/// Lengths of 1 and 33: all octets of the two names agree but for the first. Then all octets of the two slots but for
/// bits that could be a letter's case, the lengths of the names among them.
#[test]
fn lengths_that_differ_in_the_bit_of_case_are_not_the_same() {
    let mut sides = Sides::new();
    let one = [&[1, b'a', 31][..], &[b'x'; 31], &[0]].concat();
    let other = [&[33, b'a', 31][..], &[b'x'; 31], &[0]].concat();
    sides.assert_all(&one, &other, false);
    for filling in [0, 0x20] {
        let long = [&[33, b'A'][..], &[filling; 32], &[0]].concat();
        assert_eq!((long.len(), label(b"a").len()), (3 + 32, 3));
        sides.assert_all(&label(b"a"), &long, false);
    }
}

/// The first octet of a bit label is that of an A; in small letters it is malformed.
#[test]
fn a_bit_label_begins_with_65_alone() {
    let mut sides = Sides::new();
    let bit = [65, 8, 0x41, 1, b'a', 0];
    let small = [97, 8, 0x41, 1, b'a', 0];
    sides.assert_all(&bit, &bit, true);
    assert_eq!(sides.0.check(&dname_record(&bit, &name("t")), 2), 0);
    assert_eq!(sides.0.check(&dname_record(&small, &name("t")), 2), 2);
    let (mut out, mut figures) = ([0; 255], [0; 2]);
    assert_eq!(ffi::standard(&small, &mut out, &mut figures), 4);
}

#[test]
fn a_label_of_one_letter_is_never_a_bit() {
    let mut sides = Sides::new();
    for bit in [text::name(r"\[x0/1]"), text::name(r"\[x8/1]"), text::name(r"\[x0/1].a"), text::name(r"\[x8/1].a")] {
        for octet in 0..=255 {
            let above = &bit[3..];
            let letter = [&[1, octet], above].concat();
            sides.assert_all(&letter, &bit, false);
        }
    }
    // Eight of them for the bits of an A.
    sides.assert_all(&text::name(r"\[x41/8].a"), &name("1.0.0.0.0.0.1.0.a"), false);
}

/// Octets inside a label that would be a bit label, and bits that would be labels.
#[test]
fn what_looks_like_another_label_inside_a_label_plays_no_part() {
    let mut sides = Sides::new();
    let inside = |first: u8, letter: u8| label(&[first, 8, letter, 1, b'x']);
    sides.assert_all(&inside(65, 0x41), &inside(97, 0x61), true);
    sides.assert_all(&inside(65, 0x40), &inside(97, 0x60), false);
    let bits = |letter: u8| {
        let mut name = Name::new();
        name.bits(32, &[2, letter, b'b', 0]);
        name.end();
        name.octets
    };
    sides.assert_all(&bits(b'a'), &bits(b'A'), false);
    sides.assert_all(&bits(b'a'), &bits(b'a'), true);
}

// Generated names.

/// Pairs of names, one of them respelt and mostly changed a little.
const RESPELT: usize = 100_000;

/// A name like this one, mostly another: an octet changed in the bit that is a letter's case or in any bit, or set to
/// one at the edges of the letters.
fn nearly(random: &mut Random, octets: &[u8]) -> Vec<u8> {
    let mut octets = make::in_either_case(random, octets);
    let at = random.below(octets.len());
    match random.below(5) {
        0 | 1 => octets[at] ^= 0x20,
        2 => octets[at] ^= 1 << random.below(8),
        3 => octets[at] = random.pick(&[0x40, 0x41, 0x5a, 0x5b, 0x60, 0x61, 0x7a, 0x7b, 0xc1, 0xe1]),
        _ => {}
    }
    octets
}

/// Two of the ways for each pair, and a walk where it can be.
#[test]
fn generated_pairs_of_respelt_names_are_the_same_by_the_plain_rules() {
    let mut sides = Sides::new();
    let mut random = Random::new(72);
    let mut made = Name::new();
    let (mut pairs, mut equal, mut respelt, mut walked) = (0, 0, 0, 0);
    while pairs < RESPELT {
        make::standard(&mut random, &mut made);
        let one = &made.octets;
        let other = nearly(&mut random, one);
        let Some(others) = whole(&other).filter(|units| encode(units) == other) else { continue };
        let expected = same(&whole(one).expect("a name"), &others);
        for _ in 0..2 {
            let (way, is) = random.pick(&WAYS);
            assert_eq!(is(&mut sides, one, &other), expected, "{way}: {one:02x?} and {other:02x?}");
        }
        if can_be_walked(one, &other) {
            assert_eq!(sides.is_rewritten(one, &other), expected, "a walk: {one:02x?} and {other:02x?}");
            walked += 1;
        }
        pairs += 1;
        equal += expected as usize;
        respelt += (expected && *one != other) as usize;
    }
    println!("{pairs} pairs: {equal} the same, {respelt} of them respelt, {walked} walked");
    assert!(respelt > RESPELT / 5 && equal < RESPELT * 4 / 5 && walked > RESPELT / 5);
}
