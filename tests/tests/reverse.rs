//! `a6plan_reverse` against the reference, the plain rules and the vectors (01, Reverse names; T-03, T-04).

use a6plan_tests::generate::examples::{address, section_5_2};
use a6plan_tests::generate::names::{self, Name};
use a6plan_tests::generate::plan::{self, a6_record, dname_record, name, realistic};
use a6plan_tests::generate::reverse::{self as make, Walk};
use a6plan_tests::generate::Random;
use a6plan_tests::lent;
use a6plan_tests::met::Met;
use a6plan_tests::plain::names::{encode, same, whole, Unit};
use a6plan_tests::plain::reverse as plain;
use a6plan_tests::reference::plan::{FIGURES, MOST, RECORD};
use a6plan_tests::{text, vectors};

struct Sides(lent::Sides);

impl Sides {
    fn new() -> Sides {
        Sides(lent::Sides::new(600))
    }

    /// The library's number with an output of 255 octets; all that it left is the reference's.
    fn within(&mut self, table: &[u8], address: &[u8], limit: u8) -> u32 {
        self.0.reverse(table, address, limit, [255, FIGURES])
    }

    /// The name and the rewrites that the library left.
    fn shown(&self) -> (Vec<u8>, u32) {
        let [length, rewrites] = self.0.counted();
        (self.0.written(length as usize).to_vec(), rewrites)
    }

    /// The end of a walk that is accepted, with the limit that it needs, and refused with one less.
    fn end(&mut self, table: &[u8], address: &[u8]) -> (Vec<u8>, u32) {
        assert_eq!(self.within(table, address, 255), 0, "{address:02x?} is accepted");
        let end = self.shown();
        assert_eq!(self.within(table, address, end.1 as u8), 0);
        assert_eq!(self.shown(), end);
        if end.1 > 0 {
            assert_eq!(self.within(table, address, end.1 as u8 - 1), 6);
            assert_eq!(self.within(table, address, 0), 6);
        }
        end
    }
}

/// An address of which every bit matters.
const ADDRESS: [u8; 16] =
    [0x23, 0x45, 0x00, 0xc1, 0xca, 0x11, 0x00, 0x01, 0x12, 0x34, 0x56, 0x78, 0x9a, 0xbc, 0xde, 0xf0];

/// A name of one bit label with the first `count` bits of some octets, and the labels above it.
fn bits(count: usize, octets: &[u8], above: &str) -> Vec<u8> {
    under(count, octets, &name(above))
}

/// A name of one bit label and the name above it.
fn under(count: usize, octets: &[u8], above: &[u8]) -> Vec<u8> {
    let mut label = Name::new();
    if count > 0 {
        label.bits(count, octets);
    }
    [&label.octets, above].concat()
}

/// A table of DNAMEs.
fn dnames(pairs: &[(&str, &str)]) -> Vec<u8> {
    pairs.iter().flat_map(|(owner, target)| dname_record(&text::name(owner), &text::name(target))).collect()
}

/// The name that stands for an address.
fn start(address: &[u8]) -> Vec<u8> {
    bits(128, address, "IP6.ARPA")
}

// RFC 2874, section 5.3.

#[test]
fn section_5_3_ends_after_five_rewrites() {
    let mut sides = Sides::new();
    let table = section_5_2().concat();
    let last = text::name(r"\[x123456789ABCDEF0/64].SUBNET-1.IP6.X.EXAMPLE");
    for host in ["2345:00C1:CA11:1:", "2345:00D2:DA11:1:", "2345:000E:EB22:1:"] {
        let address = address(&format!("{host}1234:5678:9ABC:DEF0")).to_be_bytes();
        assert_eq!(sides.end(&table, &address), (last.clone(), 5), "{host}");
    }
    // Another subnet, another subscriber, another carrier, another registry: the walk ends where the plan does.
    for (other, name, rewrites) in [
        ("2345:00C1:CA11:2::", r"\[x00020000000000000000/80].IP6.X.EXAMPLE", 4),
        ("2345:00C1:CA12::", r"\[x1200000000000000000000/88].IP6.A.NET", 3),
        ("2345:00C1:CB11::", r"\[x1CB11000000000000000000000/100].IP6.C.NET", 2),
        ("2345:00E1::", r"\[xE1000000000000000000000000/104].IP6.ALPHA-TLA.ORG", 1),
        ("2678:00C1::", r"\[xC1000000000000000000000000/104].IP6.BRAVO-TLA.ORG", 1),
        ("2346::", r"\[x23460000000000000000000000000000/128].IP6.ARPA", 0),
    ] {
        assert_eq!(sides.end(&table, &address(other).to_be_bytes()), (text::name(name), rewrites), "{other}");
    }
}

/// The names on the way, each as the end of the walk where the next DNAME is missing.
#[test]
fn section_5_3_goes_by_these_names() {
    let mut sides = Sides::new();
    let all = section_5_2();
    let way = [
        (0, r"\[x234500C1CA110001123456789ABCDEF0/128].IP6.ARPA"),
        (3, r"\[xC1CA110001123456789ABCDEF0/104].IP6.ALPHA-TLA.ORG"),
        (6, r"\[x1CA110001123456789ABCDEF0/100].IP6.C.NET"),
        (9, r"\[x110001123456789ABCDEF0/88].IP6.A.NET"),
        (11, r"\[x0001123456789ABCDEF0/80].IP6.X.EXAMPLE"),
    ];
    for (rewrites, (next, name)) in way.into_iter().enumerate() {
        let mut table = all.clone();
        table.remove(next);
        assert_eq!(sides.end(&table.concat(), &ADDRESS), (text::name(name), rewrites as u32));
    }
}

// The vectors.

/// What a row comes to as a table: the walk of an address, or nothing.
enum Put {
    /// Table, address, the end, and how many rewrites come before the row's own.
    Walk(Vec<u8>, [u8; 16], Vec<u8>, u32),
    LeftOut,
}

/// A row as a table. A walk begins with the 128 bits of an address, and every name on its way ends, at the low end, in
/// the lowest of them. So a query that is the name of an address stands as it is; a query with up to 127 bits at its
/// low end is what one DNAME makes of an address with these bits; and a query with an ordinary label there is put with
/// one bit below it, all the way to the end. The last cannot be where the walk ends at the owner of a DNAME, since the
/// name with the bit lies beneath that owner.
fn put(query: &[u8], pairs: &str, end: &[u8]) -> Put {
    let mut table = Vec::new();
    let mut owners = Vec::new();
    for pair in pairs.split(' ') {
        let (owner, target) = pair.split_once('>').expect("owner and target");
        owners.push(text::name(owner));
        table.extend(dname_record(&text::name(owner), &text::name(target)));
    }
    let mut address = [0xa5; 16];
    let units = whole(query).expect("a name");
    let low: Vec<bool> =
        units.iter().map_while(|unit| if let Unit::Bit(bit) = unit { Some(*bit) } else { None }).collect();
    for (at, bit) in low.iter().enumerate() {
        let place = 127 - at;
        address[place / 8] &= !(128 >> (place % 8));
        address[place / 8] |= (*bit as u8 * 128) >> (place % 8);
    }
    if query == start(&address) {
        return Put::Walk(table, address, end.to_vec(), 0);
    }
    assert!(low.len() < 128, "no row has more bits at its low end");
    if low.is_empty() && owners.iter().any(|owner| owner == end) {
        return Put::LeftOut;
    }
    let kept = low.len().max(1);
    let rest = encode(&units[low.len()..]);
    table.extend(dname_record(&bits(128 - kept, &address, "IP6.ARPA"), &rest));
    if !low.is_empty() {
        return Put::Walk(table, address, end.to_vec(), 1);
    }
    let mut end = whole(end).expect("a name");
    end.insert(0, Unit::Bit(address[15] & 1 == 1));
    Put::Walk(table, address, encode(&end), 1)
}

/// The owners of a table respelt, and the targets as they are: a walk gives the same name octet for octet, since a
/// rewrite keeps the letters below the owner and takes those of the target.
fn with_owners_respelt(random: &mut Random, table: &[u8]) -> Vec<u8> {
    let mut respelt = plan::in_either_case(random, table);
    for (new, old) in respelt.chunks_exact_mut(RECORD).zip(table.chunks_exact(RECORD)) {
        new[plan::TARGET..].copy_from_slice(&old[plan::TARGET..]);
    }
    respelt
}

/// 65 of the 68 rows are put, as they are and with their owners respelt: the servers do not know case. Left out are 3
/// whose query has an ordinary label at its low end and is itself an owner. The column ptr is not used: no PTR records
/// are built here.
#[test]
fn rows_of_dname_bits_are_walked() {
    let mut sides = Sides::new();
    let mut random = Random::new(47);
    let (mut used, mut left_out) = (0, 0);
    for row in vectors::rows(vectors::DNAME_BITS) {
        let [_, query, pairs, end, query_wire, end_wire, rewrites, _ptr, _] = row[..] else { panic!("nine columns") };
        assert_eq!(text::name(query), vectors::octets(query_wire), "{query}");
        assert_eq!(text::name(end), vectors::octets(end_wire), "{end}");
        match put(&text::name(query), pairs, &text::name(end)) {
            Put::Walk(table, address, end, before) => {
                let rewrites = before + rewrites.parse::<u32>().expect("a number");
                let respelt = with_owners_respelt(&mut random, &table);
                assert_eq!(sides.end(&table, &address), (end.clone(), rewrites), "{query}");
                assert_eq!(sides.end(&respelt, &address), (end, rewrites), "{query}, owners respelt");
                used += 1;
            }
            Put::LeftOut => left_out += 1,
        }
    }
    assert_eq!((used, left_out), (65, 3));
}

/// 36 of the 47 rows are put, as they are and with their owners respelt, two of them with a result over 255 octets. Left
/// out are 11 whose query is itself an owner; all queries here have ordinary labels at their low ends. No row has the
/// note "case" that the header speaks of.
#[test]
fn rows_of_dname_rewrite_are_walked() {
    let mut sides = Sides::new();
    let mut random = Random::new(48);
    let (mut used, mut over, mut left_out) = (0, 0, 0);
    for row in vectors::rows(vectors::DNAME_REWRITE) {
        let [_, query, pairs, end, rewrites, _] = row[..] else { panic!("six columns: {row:?}") };
        let too_long = end == "YXDOMAIN";
        let end = if too_long { query } else { end };
        match put(&text::name(query), pairs, &text::name(end)) {
            Put::Walk(table, address, ..) if too_long => {
                for table in [with_owners_respelt(&mut random, &table), table] {
                    assert_eq!(sides.within(&table, &address, 255), 8, "{query}");
                    assert_eq!(sides.within(&table, &address, 1), 6, "{query}");
                }
                over += 1;
            }
            Put::Walk(table, address, end, before) => {
                let rewrites = before + rewrites.parse::<u32>().expect("a number");
                let respelt = with_owners_respelt(&mut random, &table);
                assert_eq!(sides.end(&table, &address), (end.clone(), rewrites), "{query}");
                assert_eq!(sides.end(&respelt, &address), (end, rewrites), "{query}, owners respelt");
                used += 1;
            }
            Put::LeftOut => left_out += 1,
        }
    }
    assert_eq!((used, over, left_out), (34, 2, 11));
}

// Cuts and merges.

#[test]
fn no_dname_leaves_the_name_of_the_address() {
    let mut sides = Sides::new();
    let others = a6_record(&name("IP6.ARPA"), 64, 7, &name("t"));
    for table in [&[][..], &others] {
        for address in [[0; 16], [0xff; 16], ADDRESS] {
            assert_eq!(sides.end(table, &address), (start(&address), 0));
            assert_eq!(sides.within(table, &address, 0), 0);
        }
    }
}

/// Every cut of the 128 bits of an address: the owner has `go` of them, the target none or some.
#[test]
fn every_cut_of_an_address_with_targets_that_merge() {
    let mut sides = Sides::new();
    for go in 0..128 {
        let owner = bits(go, &ADDRESS, "IP6.ARPA");
        let stay = 128 - go;
        for more in (0..=17).chain([63, 64, 65, 127, 128]) {
            let target = bits(more, &[0x5a; 32], "t");
            let table = dname_record(&owner, &target);
            let (end, rewrites) = sides.end(&table, &ADDRESS);
            assert_eq!(rewrites, 1);
            assert_eq!(end[1] as usize, (stay + more) % 256, "{go} go, {more} more");
            let units = whole(&end).expect("a name");
            assert_eq!(units[..stay], plain::start(&ADDRESS)[..stay], "{go} go, {more} more");
            assert_eq!(units[stay..], whole(&target).expect("a name"), "{go} go, {more} more");
        }
    }
}

/// A DNAME with all 128 bits in its owner has nothing beneath it, nor has one with a bit that differs.
#[test]
fn an_owner_with_every_bit_or_another_bit_does_not_apply() {
    let mut sides = Sides::new();
    for go in 1..=128 {
        let mut other = ADDRESS;
        other[(go - 1) / 8] ^= 128 >> ((go - 1) % 8);
        let table = dname_record(&bits(go, &other, "IP6.ARPA"), &name("t"));
        assert_eq!(sides.end(&table, &ADDRESS), (start(&ADDRESS), 0), "{go} bits");
    }
    let table = dname_record(&start(&ADDRESS), &name("t"));
    assert_eq!(sides.end(&table, &ADDRESS), (start(&ADDRESS), 0));
}

/// The first rewrite makes a run of 256 bits, the second cuts it at every place.
#[test]
fn every_cut_of_a_run_of_256_bits() {
    let mut sides = Sides::new();
    let mut random = Random::new(41);
    let octets: Vec<u8> = (0..16).map(|_| random.octet()).collect();
    let run = [&octets[..], &ADDRESS].concat();
    let first = dname_record(&name("IP6.ARPA"), &bits(128, &octets, "u"));
    assert_eq!(sides.end(&first, &ADDRESS), (bits(256, &run, "u"), 1));
    for go in 1..=255 {
        for more in [0, 7, go, go + 1] {
            let target = bits(more.min(256), &[0x3c; 32], "t");
            let table = [first, dname_record(&bits(go, &run, "u"), &target)].concat();
            if more > go {
                assert_eq!(sides.within(&table, &ADDRESS, 255), 8, "{go} bits go, {more} come");
                continue;
            }
            let (end, rewrites) = sides.end(&table, &ADDRESS);
            assert_eq!(rewrites, 2);
            let units = whole(&end).expect("a name");
            let (kept, above) = units.split_at(256 - go);
            assert_eq!(above, whole(&target).expect("a name"), "{go} bits go, {more} come");
            assert!(kept.iter().eq(whole(&bits(256, &run, "")).expect("a name")[..256 - go].iter()));
        }
    }
    let table = [first, dname_record(&bits(256, &run, "u"), &name("t"))].concat();
    assert_eq!(sides.end(&table, &ADDRESS), (bits(256, &run, "u"), 1), "the name itself is an owner");
}

/// For every number of bits kept, targets with as many as make 255, 256 and 257.
#[test]
fn targets_that_fill_a_run_to_256_bits_and_one_more() {
    let mut sides = Sides::new();
    for stay in 1..=128 {
        let owner = bits(128 - stay, &ADDRESS, "IP6.ARPA");
        for total in 255..=258 {
            let more = total - stay;
            if more > 256 {
                continue;
            }
            let table = dname_record(&owner, &bits(more, &[0x99; 32], "t"));
            if total > 256 {
                assert_eq!(sides.within(&table, &ADDRESS, 1), 8, "{stay} and {more} bits");
                assert_eq!(sides.within(&table, &ADDRESS, 255), 8);
                assert_eq!(sides.within(&table, &ADDRESS, 0), 6, "6 before 8");
            } else {
                let (end, _) = sides.end(&table, &ADDRESS);
                assert_eq!(end[1] as usize, total % 256, "{stay} and {more} bits");
            }
        }
    }
}

/// A run that goes on across the owner: the label between the bits goes, and the bits meet.
#[test]
fn bits_on_both_sides_of_an_owner_meet() {
    let mut sides = Sides::new();
    let table = dnames(&[("IP6.ARPA", r"h.\[x5/3].u"), (r"h.\[x5/3].u", r"\[x9/4].t"), (r"\[x9/4].t", "v")]);
    assert_eq!(sides.end(&table, &ADDRESS), (bits(128, &ADDRESS, "v"), 3));
    let table = dnames(&[("IP6.ARPA", r"h.\[x4/3].u"), (r"\[x4/2].u", r"\[xE/3].t")]);
    let end = [&start(&ADDRESS)[..18], &text::name(r"h.\[xC/4].t")].concat();
    assert_eq!(sides.end(&table, &ADDRESS).1, 2);
    assert_ne!(sides.shown().0, end, "the kept bit comes after the target's");
    let end = [&start(&ADDRESS)[..18], &text::name(r"h.\[xE/4].t")].concat();
    assert_eq!(sides.end(&table, &ADDRESS), (end, 2));
}

/// Results of 253 to 257 octets, with and without merging: 255 are counted in standard form.
#[test]
fn names_of_254_and_255_octets_are_taken_and_of_256_refused() {
    let mut sides = Sides::new();
    let mut random = Random::new(42);
    let mut made = Name::new();
    for total in 253..=258 {
        for go in [0, 1, 64, 120, 127] {
            for more in [0, 1, 8, 100] {
                let run = size_of(128 - go + more);
                for longest in [2, 3, 10, 64] {
                    let rest = total - run;
                    if longest == 2 && rest.is_multiple_of(2) {
                        continue;
                    }
                    names::of_length(&mut random, &mut made, rest, longest, 0);
                    let target = under(more, &[0xc3; 32], &made.octets);
                    if target.len() > 255 {
                        continue;
                    }
                    let table = dname_record(&bits(go, &ADDRESS, "IP6.ARPA"), &target);
                    if total > 255 {
                        assert_eq!(sides.within(&table, &ADDRESS, 1), 8, "{total} octets");
                        assert_eq!(sides.within(&table, &ADDRESS, 0), 6, "{total} octets");
                    } else {
                        assert_eq!(sides.end(&table, &ADDRESS).0.len(), total);
                    }
                }
            }
        }
    }
}

/// Octets of a bit label with so many bits.
fn size_of(bits: usize) -> usize {
    2 + bits.div_ceil(8)
}

/// 8 comes at once, even where the next rewrite would make the name short again.
#[test]
fn a_name_too_long_on_the_way_is_refused() {
    let mut sides = Sides::new();
    let (long, _) = plan::full_name(63, b'l');
    for (target, number) in [(&long[64..], 0), (&long[..], 8)] {
        let table = [dname_record(&name("IP6.ARPA"), target), dname_record(&long[128..], &name("t"))].concat();
        assert_eq!(sides.within(&table, &ADDRESS, 255), number, "a target of {} octets", target.len());
    }
}

// Which DNAME applies.

/// Owners of every number of units, in any order: the one with most units is used, then the next when it is gone.
#[test]
fn the_owner_with_most_units_is_used() {
    let mut sides = Sides::new();
    let mut random = Random::new(43);
    let owner = |units: usize| if units == 1 { name("ARPA") } else { bits(units - 2, &ADDRESS, "IP6.ARPA") };
    let target = |units: usize| name(&format!("t{units}"));
    for most in 1..130 {
        let mut records: Vec<[u8; RECORD]> =
            (1..=most).map(|units| dname_record(&owner(units), &target(units))).collect();
        records.push(dname_record(&owner(130), &target(130)));
        random.shuffle(&mut records);
        let mut kept = encode(&plain::start(&ADDRESS)[..130 - most]);
        kept.pop();
        let expected = [kept, target(most)].concat();
        assert_eq!(sides.end(&records.concat(), &ADDRESS), (expected, 1), "{most} units");
    }
}

/// Most units, not most labels and not most octets: the owners here have as many of these.
#[test]
fn units_are_counted_and_not_labels_or_octets() {
    let mut sides = Sides::new();
    let first = ("IP6.ARPA", r"\[xA8/8].u");
    let (four, five) = ((r"\[xA/4].u", "four"), (r"\[xA8/5].u", "five"));
    for order in [[first, four, five], [first, five, four], [five, four, first], [four, five, first]] {
        let (end, rewrites) = sides.end(&dnames(&order), &ADDRESS);
        assert_eq!((end.ends_with(&name("five")), end[1], rewrites), (true, 131, 2));
    }
    // One label of 63 octets, and five bits in three octets more.
    let long = "x".repeat(63);
    let bits_first = format!(r"\[xA8/5].{long}");
    for order in [[(&long[..], "octets"), (&bits_first, "bits")], [(&bits_first, "bits"), (&long, "octets")]] {
        let table = dnames(&[&[("IP6.ARPA", &bits_first[..])], &order[..]].concat());
        assert_eq!(sides.end(&table, &ADDRESS), (bits(128, &ADDRESS, "bits"), 2));
    }
}

/// A bit is never an ordinary label, and octets that are no letters have no case.
#[test]
fn labels_that_only_look_like_the_name_do_not_apply() {
    let mut sides = Sides::new();
    for owner in
        [r"IP\022.ARPA", "6.ARPA", "P6.ARPA", "IP6", "IP6.ARPA.ARPA", r"\048.IP6.ARPA", r"\001.IP6.ARPA", "a.IP6.ARPA"]
    {
        let table = dnames(&[(owner, "t")]);
        assert_eq!(sides.end(&table, &[0; 16]), (start(&[0; 16]), 0), "{owner}");
    }
    // An owner whose octets end the name, but not where a label begins.
    let inside = [&[3][..], b"\x03IP", &[0]].concat();
    let table =
        [dname_record(&name("IP6.ARPA"), &[&[7][..], b"abc", &inside].concat()), dname_record(&inside, &name("t"))];
    assert_eq!(sides.end(&table.concat(), &ADDRESS).1, 1);
}

/// A name that is itself the owner of a DNAME is rewritten by one above it, never by its own.
#[test]
fn a_name_that_is_an_owner_is_rewritten_from_above_only() {
    let mut sides = Sides::new();
    let own = dname_record(&start(&ADDRESS), &name("own"));
    assert_eq!(sides.end(&own, &ADDRESS), (start(&ADDRESS), 0));
    for (above, target) in [("IP6.ARPA", "t"), ("ARPA", "t"), ("ARPA", "IP6.t")] {
        let table = [own, dname_record(&name(above), &name(target))].concat();
        let (end, rewrites) = sides.end(&table, &ADDRESS);
        assert_eq!(rewrites, 1);
        assert_eq!(end[..18], start(&ADDRESS)[..18]);
    }
    // The same after a rewrite, with the bits of the run split between the two owners.
    let table = dnames(&[("IP6.ARPA", "u"), (r"\[x2/4].u", r"\[x3/4].w"), (r"\[x3/4].w", "x")]);
    assert_eq!(sides.end(&table, &ADDRESS), (bits(124, &low(124), "x"), 3));
}

/// The lowest `count` bits of the address, left-justified.
fn low(count: usize) -> Vec<u8> {
    let address = u128::from_be_bytes(ADDRESS) << (128 - count);
    address.to_be_bytes().to_vec()
}

/// The root as owner is above every other name; as target it leaves the units below.
#[test]
fn the_root_as_owner_and_as_target() {
    let mut sides = Sides::new();
    let table = dnames(&[("IP6.ARPA", "")]);
    assert_eq!(sides.end(&table, &ADDRESS), (bits(128, &ADDRESS, ""), 1));
    let table = dnames(&[("ARPA", "")]);
    assert_eq!(sides.end(&table, &ADDRESS), (bits(128, &ADDRESS, "IP6"), 1));
    // Every name gets longer, until it is too long.
    let table = dnames(&[("", "t")]);
    let room = (255 - start(&ADDRESS).len()) as u8 / 2;
    for limit in 0..=255 {
        assert_eq!(sides.within(&table, &ADDRESS, limit), if limit <= room { 6 } else { 8 }, "limit {limit}");
    }
    // A target of bits: the run of them grows to 256 below the root, after the labels.
    let table = dnames(&[("", r"\[x5/4]")]);
    for limit in [0, 1, 63, 64, 65, 66, 255] {
        let number = if limit <= 64 { 6 } else { 8 };
        assert_eq!(sides.within(&table, &ADDRESS, limit), number, "limit {limit}");
    }
}

// Letters of either case (T-03).

/// All 64 spellings of IP6.ARPA.
fn spellings() -> Vec<Vec<u8>> {
    let letters = [1, 2, 5, 6, 7, 8];
    let spelling = |cases: usize| {
        let mut octets = name("IP6.ARPA");
        for (at, place) in letters.iter().enumerate() {
            octets[*place] ^= ((cases >> at & 1) as u8) << 5;
        }
        octets
    };
    (0..64).map(spelling).collect()
}

/// Owners at the tree itself, above it, and with some bits below it.
#[test]
fn every_spelling_of_the_tree_applies() {
    let mut sides = Sides::new();
    let all = spellings();
    assert_eq!((&all[0], &all[63]), (&name("IP6.ARPA"), &name("ip6.arpa")));
    assert!(all.contains(&name("Ip6.aRpA")));
    for tree in &all {
        let end = (bits(128, &ADDRESS, "t"), 1);
        assert_eq!(sides.end(&dname_record(tree, &name("t")), &ADDRESS), end, "{tree:02x?}");
        let end = (bits(128, &ADDRESS, "IP6.t"), 1);
        assert_eq!(sides.end(&dname_record(&tree[4..], &name("t")), &ADDRESS), end, "{tree:02x?}");
        for go in [1, 7, 8, 24, 64, 127] {
            let table = dname_record(&under(go, &ADDRESS, tree), &name("t"));
            let end = (bits(128 - go, &low(128 - go), "t"), 1);
            assert_eq!(sides.end(&table, &ADDRESS), end, "{go} bits below {tree:02x?}");
        }
    }
}

/// The walk starts at IP6.ARPA in capitals, whatever the table has.
#[test]
fn the_walk_starts_in_capitals() {
    let mut sides = Sides::new();
    for tree in spellings() {
        let own = dname_record(&under(128, &ADDRESS, &tree), &name("t"));
        let other = dname_record(&under(8, &[0xff], &tree), &tree);
        for table in [own, other] {
            assert_eq!(sides.end(&table, &ADDRESS), (start(&ADDRESS), 0), "{tree:02x?}");
        }
    }
}

/// The units below the owner are spelt as in the name, those of the target as in the target; the owner's letters do not
/// come up.
#[test]
fn a_rewrite_keeps_the_letters_below_and_takes_those_of_the_target() {
    let mut sides = Sides::new();
    let table = dnames(&[
        ("ip6.ARPA", r"Host.\[x41/8].Sub.Net.Example"),
        ("sUB.nET.eXAMPLE", "sub.NEW.Example"),
        (r"\[x4/4].SUB.new.eXaMpLe", r"\[x6/4].oTHER"),
    ]);
    let host = [&start(&ADDRESS)[..18], &text::name(r"Host.\[x61/8].oTHER")].concat();
    assert_eq!(sides.end(&table, &ADDRESS), (host, 3));
    let host = [&start(&ADDRESS)[..18], &text::name(r"Host.\[x41/8].sub.NEW.Example")].concat();
    assert_eq!(sides.end(&table[..2 * RECORD], &ADDRESS), (host, 2));
}

/// Every cut of the 128 bits of an address, with the rest of the owner in other letters.
#[test]
fn every_cut_of_an_address_with_the_rest_respelt() {
    let mut sides = Sides::new();
    let mut random = Random::new(49);
    let all = spellings();
    for go in 0..128 {
        for more in [0, 1, 7, 8, 64] {
            let target = bits(more, &[0x5a; 32], "Target");
            let end = sides.end(&dname_record(&bits(go, &ADDRESS, "IP6.ARPA"), &target), &ADDRESS);
            for _ in 0..8 {
                let table = dname_record(&under(go, &ADDRESS, &all[random.below(64)]), &target);
                assert_eq!(sides.end(&table, &ADDRESS), end, "{go} go, {more} more");
            }
        }
    }
}

/// Bits of the owner that are those of the address but for the bit of case: an A for an a at each octet.
#[test]
fn an_owner_whose_bits_look_like_the_address_does_not_apply() {
    let mut sides = Sides::new();
    for at in 0..16 {
        let mut other = [0x41; 16];
        other[at] = 0x61;
        for tree in ["IP6.ARPA", "ip6.arpa"] {
            for count in [8 * at + 3, 8 * at + 8, 127] {
                let table = dname_record(&bits(count, &other, tree), &name("t"));
                assert_eq!(sides.end(&table, &[0x41; 16]), (start(&[0x41; 16]), 0), "octet {at}, {count} bits");
            }
        }
    }
}

/// Owners of every number of units, in any order and any letters: the one with most units is used.
#[test]
fn the_owner_with_most_units_is_used_in_any_letters() {
    let mut sides = Sides::new();
    let mut random = Random::new(50);
    let owner = |units: usize| if units == 1 { name("arpa") } else { bits(units - 2, &ADDRESS, "Ip6.Arpa") };
    for most in 1..130 {
        let mut records: Vec<[u8; RECORD]> =
            (1..=most).map(|units| dname_record(&owner(units), &name(&format!("T{units}")))).collect();
        random.shuffle(&mut records);
        let table = with_owners_respelt(&mut random, &records.concat());
        let mut kept = encode(&plain::start(&ADDRESS)[..130 - most]);
        kept.pop();
        let expected = [kept, name(&format!("T{most}"))].concat();
        assert_eq!(sides.end(&table, &ADDRESS), (expected, 1), "{most} units");
    }
}

/// A DNAME whose owner the name itself is, in other letters, does not apply to it.
#[test]
fn a_name_that_is_an_owner_in_other_letters_is_rewritten_from_above_only() {
    let mut sides = Sides::new();
    let own = dname_record(&bits(128, &ADDRESS, "ip6.arpa"), &name("own"));
    assert_eq!(sides.end(&own, &ADDRESS), (start(&ADDRESS), 0));
    let table = [own, dname_record(&name("arpa"), &name("t"))].concat();
    assert_eq!(sides.end(&table, &ADDRESS), (bits(128, &ADDRESS, "IP6.t"), 1));
}

/// A walk that comes back to the tree in small letters goes on for ever, and takes their spelling.
#[test]
fn loops_through_other_letters_end_at_the_limit() {
    let mut sides = Sides::new();
    for table in [
        dnames(&[("IP6.ARPA", "ip6.arpa")]),
        dnames(&[("ip6.arpa", "A"), ("a", "B"), ("b", "Ip6.Arpa")]),
        dnames(&[(r"\[x2/4].ip6.arpa", r"\[x1/3].T"), (r"\[x1/3].t", r"\[x2/4].IP6.ARPA")]),
    ] {
        for limit in 0..=255 {
            assert_eq!(sides.within(&table, &ADDRESS, limit), 6, "limit {limit}");
        }
    }
}

/// The same rewrites, length and name as by `table`, the name perhaps in other letters; all octets are those of the
/// plain rules.
fn assert_same_end(sides: &mut Sides, table: &[u8], respelt: &[u8], address: &[u8], limit: u8) -> u32 {
    let number = sides.within(table, address, limit);
    let (end, rewrites) = sides.shown();
    assert_eq!(sides.within(respelt, address, limit), number, "{address:02x?}");
    let (other, again) = sides.shown();
    assert_eq!((other.len(), again), (end.len(), rewrites), "{address:02x?}");
    if number == 0 {
        let units = [&end, &other].map(|name| whole(name).expect("a name"));
        assert!(same(&units[0], &units[1]), "{end:02x?} and {other:02x?}");
    }
    assert_eq!(sides.0.answer(number), plain::lookup(respelt, address, limit, 255, FIGURES), "{address:02x?}");
    number
}

/// Every address of the realistic plan, owners and targets respelt at random, and the plan of the benchmark in which
/// every second name is.
#[test]
fn the_realistic_plan_respelt_has_the_same_ends_but_for_spelling() {
    let mut sides = Sides::new();
    let mut random = Random::new(57);
    let plan = realistic();
    let mut tables = vec![plan.respelt().table];
    tables.extend((0..3).map(|_| plan::in_either_case(&mut random, &plan.table)));
    for table in &tables {
        for address in &plan.addresses {
            assert_eq!(assert_same_end(&mut sides, &plan.table, table, address, 3), 0);
            assert_eq!(sides.shown().1, 3);
            assert_eq!(assert_same_end(&mut sides, &plan.table, table, address, 2), 6);
        }
        let respelt = with_owners_respelt(&mut random, table);
        for address in &plan.addresses {
            let end = sides.end(table, address);
            assert_eq!(sides.end(&respelt, address), end, "owners alone respelt");
        }
    }
}

// Loops and limits.

#[test]
fn loops_end_at_the_limit() {
    let mut sides = Sides::new();
    let loops = [
        dnames(&[("IP6.ARPA", "IP6.ARPA")]),
        dnames(&[("", "")]),
        dnames(&[("IP6.ARPA", "a"), ("a", "b"), ("b", "IP6.ARPA")]),
        dnames(&[(r"\[x2/4].IP6.ARPA", r"\[x2/4].IP6.ARPA")]),
        dnames(&[(r"\[x2/4].IP6.ARPA", r"\[x1/3].t"), (r"\[x1/3].t", r"\[x2/4].IP6.ARPA")]),
    ];
    for table in &loops {
        for limit in 0..=255 {
            assert_eq!(sides.within(table, &ADDRESS, limit), 6, "limit {limit}");
        }
    }
    // A loop that takes bits off the name ends when none is left.
    let table = dnames(&[(r"\[x2/4].IP6.ARPA", "u"), (r"\[x0/1].u", "u"), (r"\[x8/1].u", "u")]);
    assert_eq!(sides.end(&table, &ADDRESS), (bits(1, &[0], "u"), 124));
}

/// A walk of exactly 255 rewrites, and one of 256.
#[test]
fn walks_of_255_rewrites_are_taken_and_of_256_refused() {
    let mut sides = Sides::new();
    for steps in [254, 255, 256] {
        let mut table = dname_record(&name("IP6.ARPA"), &name("n1")).to_vec();
        for step in 1..steps {
            table.extend(dname_record(&name(&format!("n{step}")), &name(&format!("n{}", step + 1))));
        }
        if steps == 256 {
            assert_eq!(sides.within(&table, &ADDRESS, 255), 6);
        } else {
            assert_eq!(sides.end(&table, &ADDRESS), (bits(128, &ADDRESS, &format!("n{steps}")), steps as u32));
        }
    }
}

/// 6 comes before 8 at every step, and 8 only when its rewrite is the next one.
#[test]
fn a_rewrite_that_is_too_large_is_6_while_none_is_left() {
    let mut sides = Sides::new();
    for before in 0..6_u8 {
        let mut table = Vec::new();
        let step_name = |step: u8| if step == 0 { name("IP6.ARPA") } else { name(&format!("n{step}")) };
        for step in 0..before {
            table.extend(dname_record(&step_name(step), &step_name(step + 1)));
        }
        table.extend(dname_record(&step_name(before), &plan::full_name(63, b'f').0));
        for limit in 0..=255 {
            let expected = if limit <= before { 6 } else { 8 };
            assert_eq!(sides.within(&table, &ADDRESS, limit), expected, "limit {limit}, {before} before");
        }
    }
}

// The numbers and their order.

#[test]
fn the_first_number_that_is_earned_is_given() {
    let mut sides = Sides::new();
    for (table, of_table) in &plan::earning(&section_5_2().concat()) {
        for length in [16, 0, 1, 15, 17, 32] {
            for out in [255, 0, 254, 256, 600] {
                for figures in [4, 0, 1, 2, 3, 5] {
                    for limit in [0, 4, 5, 255] {
                        let of_address = if length == 16 { 0 } else { 4 };
                        let of_output = if out == 255 && figures == 4 { 0 } else { 5 };
                        let of_limit = if limit < 5 { 6 } else { 0 };
                        let earned = [*of_table, of_address, of_output, of_limit];
                        let first = earned.into_iter().find(|number| *number != 0).unwrap_or(0);
                        let octets = [&ADDRESS[..], &ADDRESS].concat();
                        assert_eq!(sides.0.reverse(table, &octets[..length], limit, [out, figures]), first);
                    }
                }
            }
        }
    }
}

// Generated walks.

/// Cases in each half.
const GENERATED: usize = 150_000;

#[test]
fn generated_walks_agree_octet_for_octet() {
    generated(44);
}

#[test]
fn other_generated_walks_agree_octet_for_octet() {
    generated(45);
}

/// Library, reference and plain rules agree on every octet, and every number comes up: tables damaged and not, DNAMEs
/// that cut anywhere, merge, lead back and make too much, limits around the number of rewrites.
fn generated(seed: u64) {
    let mut sides = Sides::new();
    let mut random = Random::new(seed);
    let (mut made, mut walk) = (Name::new(), Walk::default());
    let mut met = Met::default();
    let mut rewrites = [0; 256];
    let mut cases = 0;
    while cases < GENERATED {
        make::walk(&mut random, &mut made, &mut walk);
        let Walk { table, address } = &mut walk;
        plan::spoil(&mut random, &mut made, table);
        let mut limits = vec![random.pick(&[0, 1, 2, 3, 5, 8, 20])];
        if random.once_in(40) {
            limits.push(255);
        }
        let address = &mut address[..];
        let address = if random.once_in(24) { &address[..random.below(16)] } else { address };
        let out = if random.once_in(24) { random.pick(&[0, 1, 254, 256, 300]) } else { 255 };
        let figures = if random.once_in(24) { random.below(7) } else { FIGURES };
        while let Some(limit) = limits.pop() {
            let number = sides.0.reverse(table, address, limit, [out, figures]);
            assert_eq!(sides.0.answer(number), plain::lookup(table, address, limit, out, figures), "case {cases}");
            met.count(number);
            cases += 1;
            if number == 0 && limits.is_empty() {
                let [_, needed] = sides.0.counted();
                rewrites[needed as usize] += 1;
                if needed > 0 && limit as u32 != needed - 1 {
                    assert_eq!(sides.0.reverse(table, address, needed as u8 - 1, [out, figures]), 6);
                    assert_eq!(sides.0.reverse(table, address, needed as u8, [out, figures]), 0);
                    cases += 2;
                }
            }
        }
    }
    met.are("reverse", &[0, 1, 2, 3, 4, 5, 6, 8], GENERATED / 100);
    println!("rewrites {:?}", &rewrites[..10]);
    assert!(rewrites[1..5].iter().all(|times| *times > GENERATED / 400), "{rewrites:?}");
}

/// Walks by tables that are respelt.
const RESPELT: usize = 100_000;

/// The same number, rewrites and length by a table and by the same table respelt, and the same name but for spelling;
/// where the owners alone are respelt, the same octets.
#[test]
fn generated_walks_by_respelt_tables_have_the_same_ends_but_for_spelling() {
    let mut sides = Sides::new();
    let mut random = Random::new(58);
    let (mut made, mut walk) = (Name::new(), Walk::default());
    let mut met = Met::default();
    let mut otherwise = 0;
    for _ in 0..RESPELT {
        make::walk(&mut random, &mut made, &mut walk);
        let Walk { table, address } = &walk;
        let limit = random.pick(&[1, 2, 3, 5, 8, 20]);
        let respelt = plan::in_either_case(&mut random, table);
        let number = assert_same_end(&mut sides, table, &respelt, address, limit);
        met.count(number);
        let other = sides.0.answer(number);
        let number = sides.within(table, address, limit);
        let end = sides.0.answer(number);
        otherwise += (end != other) as usize;
        let number = sides.within(&with_owners_respelt(&mut random, table), address, limit);
        assert_eq!(sides.0.answer(number), end, "owners alone respelt");
    }
    met.are("reverse by respelt tables", &[0, 6, 8], RESPELT / 100);
    println!("{otherwise} ends are spelt in another way");
    assert!(otherwise > RESPELT / 10);
}

/// Tables of hundreds of DNAMEs: random owners above one address and its rewrites, and the realistic table.
#[test]
fn large_tables_agree() {
    let mut sides = Sides::new();
    let plan = realistic();
    for address in &plan.addresses {
        let (end, rewrites) = sides.end(&plan.table, address);
        assert_eq!(rewrites, 3, "{address:02x?}");
        assert!(plan.sites.iter().any(|site| end.ends_with(site)), "{end:02x?}");
    }
    let mut random = Random::new(46);
    for _ in 0..300 {
        let mut address = [0; 16];
        address.fill_with(|| random.octet());
        let mut table = Vec::new();
        let mut owners = Vec::new();
        for _ in 0..random.pick(&[100, 400, MOST]) {
            let above = random.pick(&["IP6.ARPA", "a", "b", "c"]);
            let mut prefix = address;
            if random.once_in(4) {
                prefix[random.below(16)] ^= 1 << random.below(8);
            }
            let owner = bits(random.below(129), &prefix, above);
            if !owners.contains(&owner) {
                let target = bits(random.pick(&[0, 0, 1, 5]), &[random.octet()], random.pick(&["a", "b", "c", "d"]));
                table.extend(dname_record(&owner, &target));
                owners.push(owner);
            }
        }
        for limit in [0, 3, 40] {
            let number = sides.within(&table, &address, limit);
            assert_eq!(number, plain::lookup(&table, &address, limit, 255, FIGURES).0);
        }
    }
}
