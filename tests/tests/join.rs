//! The join at every position (01, Chains; T-05): `address::join` itself, by the program `joins`; and through the C
//! interface, where a collapse runs it and a lookup the join of halves.

use a6plan_tests::generate::plan::{a6_record, name};
use a6plan_tests::generate::Random;
use a6plan_tests::lent::Sides;
use a6plan_tests::plain::address as plain;
use a6plan_tests::programs::{built, written};
use a6plan_tests::reference::address::join;
use a6plan_tests::reference::plan::{FIGURES, RECORD};
use a6plan_tests::tree::{repository, text_of};
use std::fs;

/// The octets of a case of the program `joins`, and the pairs of which it takes all 256 positions at a time.
const CASE: usize = 33;
const PAIRS: usize = 7;

/// Pairs of addresses: those that differ in every bit, in one bit or one octet at each place, and any.
fn pairs() -> Vec<[u128; 2]> {
    let mut pairs = vec![[u128::MAX, 0], [0, u128::MAX], [0x5555 * (u128::MAX / 0xffff), 0xaaaa * (u128::MAX / 0xffff)]];
    pairs.extend((0..128).map(|number| [1 << number, 0]));
    pairs.extend((0..16).map(|octet| [0, 0xff << (octet * 8)]));
    let mut random = Random::new(50);
    let mut address = || (random.number() as u128) << 64 | random.number() as u128;
    pairs.extend((0..126).map(|_| [address(), address()]));
    pairs
}

/// The case of the program `joins`.
fn case([high, low]: [u128; 2], at: u8) -> Vec<u8> {
    [&high.to_be_bytes()[..], &low.to_be_bytes(), &[at]].concat()
}

/// From 0 to 128 the reference gives the bits of both and the picture, and from 128 on the first address.
#[test]
fn the_reference_is_the_picture() {
    for [high, low] in pairs() {
        let sides = [high.to_be_bytes(), low.to_be_bytes()];
        for at in 0..=255 {
            let joined = join(high, low, at).to_be_bytes();
            assert_eq!(joined, plain::join(&sides[0], &sides[1], at as usize)[..]);
            match at {
                0..=128 => assert_eq!(joined, plain::drawn(&sides[0], &sides[1], at as usize)[..]),
                _ => assert_eq!(joined, sides[0]),
            }
        }
    }
}

#[test]
fn the_join_at_every_position() {
    let Some(program) = built("joins") else { return };
    let pairs = pairs();
    for pairs in pairs.chunks(PAIRS) {
        let cases = || pairs.iter().flat_map(|pair| (0..=255).map(|at| (*pair, at)));
        let input: Vec<u8> = cases().flat_map(|(pair, at)| case(pair, at)).collect();
        let output = written(&program, &input);
        assert_eq!(output.len(), 16 * cases().count());
        for (joined, ([high, low], at)) in output.chunks(16).zip(cases()) {
            assert_eq!(joined, join(high, low, at).to_be_bytes(), "{high:032x} and {low:032x} at {at}");
        }
    }
    println!("the program joins: {} pairs at 256 positions", pairs.len());
}

/// A case that is cut short gets no answer, and the whole ones before it do.
#[test]
fn a_case_cut_short_gets_no_answer() {
    let Some(program) = built("joins") else { return };
    let whole = case([u128::MAX, 0], 1);
    for octets in 0..CASE {
        assert_eq!(written(&program, &whole[..octets]), []);
        assert_eq!(written(&program, &[&whole, &whole[..octets]].concat()), (1u128 << 127).to_be_bytes());
    }
}

/// A host of a carrier, one record each: the collapse writes the joined address and a lookup gives it.
#[test]
fn a_collapse_and_a_lookup_join_alike_at_every_prefix_length() {
    let (host, carrier) = (name("host.site"), name("carrier"));
    let mut sides = Sides::new(4 * RECORD);
    for [high, low] in pairs() {
        for at in 1..=128 {
            let own = join(0, low, at);
            let table = [a6_record(&host, at, own, &carrier), a6_record(&carrier, 0, high, &[])].concat();
            let joined = join(high, low, at).to_be_bytes();
            assert_eq!(sides.collapse(&table, &host, [2 * RECORD, FIGURES]), 0);
            assert_eq!(sides.written(2 * RECORD)[4..20], joined, "the collapse at {at}");
            assert_eq!(sides.lookup(&table, &host, 10, [16, 1, FIGURES]), 0);
            assert_eq!(sides.written(16), joined, "the lookup at {at}");
        }
    }
}

/// The octets of a row of a drawing: its words of two capital hexadecimal digits.
fn octets(line: &str) -> Vec<u8> {
    let words = line.split_whitespace().filter(|word| word.len() == 2 && *word == word.to_uppercase());
    words.filter_map(|word| u8::from_str_radix(word, 16).ok()).collect()
}

/// FORMATS draws the first two stored cases, one inside an octet and one at an edge: position, rows of octets, and bits.
#[test]
fn formats_draws_the_stored_cases() {
    let read = |file: &str| fs::read(repository().join("crates/joins").join(file)).expect("a stored file");
    let (cases, joined) = (read("stdin"), read("stdout"));
    let formats = text_of("docs/FORMATS.md");
    for (number, joined) in joined.chunks(16).take(2).enumerate() {
        let case = &cases[number * CASE..][..CASE];
        let (first, second, place, bits) = (&case[..16], &case[16..32], case[32] as usize / 8, case[32] % 8);
        let heading = match number {
            0 => format!("Position {}, inside octet {place}:", case[32]),
            _ => format!("Position {}, at the edge between octets {} and {place}:", case[32], place - 1),
        };
        assert_eq!(bits == 0, number == 1);
        let lines: Vec<&str> = formats.lines().skip_while(|line| *line != heading).collect();
        let rows: Vec<Vec<u8>> = lines.iter().map(|line| octets(line)).filter(|row| row.len() == 16).collect();
        assert_eq!(rows[..3], [first, second, joined], "the rows under {heading:?}");
        if bits > 0 {
            for octet in [first[place], second[place], joined[place]] {
                let (left, right) = (octet >> (8 - bits), octet & (255 >> bits));
                let (width, rest) = (bits as usize, 8 - bits as usize);
                let line = format!("{octet:02X} = {left:0width$b} {right:0rest$b}");
                assert!(lines.iter().any(|shown| shown.ends_with(&line)), "{line} under {heading:?}");
            }
        }
    }
    assert!(joined.len() >= 32);
}
