//! Zone lines (T-06): records spelt in every way that is read, damaged lines, and the lines that cost most.

use super::names::{self, Name};
use super::plan::{self, a6_record, put_ttl, LONGEST, MOST, OWNER, RECORD, TARGET, TTL};
use super::{a6, Random};
use crate::reference;

/// The most octets in a line that is written.
pub const LINE: usize = 2_066;
/// The TTL of a line that has none.
const USUAL: u32 = 300;

/// An address with zeros in many groups and with groups of every size.
pub fn address(random: &mut Random) -> u128 {
    let group = |random: &mut Random| (random.number() as u16 as u128) >> random.pick(&[16, 16, 16, 0, 1, 4, 8, 12]);
    (0..8).fold(0, |address, _| address << 16 | group(random))
}

/// An A6 record in order.
pub fn record(random: &mut Random, made: &mut Name) -> [u8; RECORD] {
    let length = if random.once_in(8) { 128 } else { a6::length(random) };
    let owner = plan::some_name(random, made);
    let target = if length == 0 { vec![] } else { plan::some_name(random, made) };
    let mut record = a6_record(&owner, length, address(random), &target);
    let ttl = if random.once_in(4) { USUAL } else { plan::some_ttl(random) };
    put_ttl(&mut record, ttl);
    record
}

// Pieces of lines.

/// A name in text of so many octets, in ordinary labels of `longest` octets, the last ones of what is left.
pub fn of_octets(octets: usize, longest: usize) -> String {
    let mut text = String::new();
    let mut left = octets - 1;
    while left > 0 {
        let size = if left == longest + 2 { longest } else { left.min(longest + 1) };
        text += &("x".repeat(size - 1) + ".");
        left -= size;
    }
    text
}

/// A bit label of so many bits, all of them set.
pub fn ones(count: usize) -> String {
    let last = ["F", "8", "C", "E"][count % 4];
    format!("\\[x{}{last}/{count}]", "F".repeat(count.div_ceil(4) - 1))
}

/// The name in a slot of a record.
fn name_in(record: &[u8], slot: usize) -> &[u8] {
    &record[slot + 1..][..record[slot] as usize]
}

/// The fields of a line in their order; an empty one is left out.
type Fields = [Vec<u8>; 6];

// Spellings.

/// Some spelling of a record in order.
fn spelt(random: &mut Random, record: &[u8]) -> Fields {
    let length = record[2];
    let mut fields = Fields::default();
    name_text(random, name_in(record, OWNER), &mut fields[0]);
    let ttl = u32::from_be_bytes(record[TTL..].try_into().expect("four octets"));
    if ttl != USUAL || random.once_in(2) {
        fields[1] = ttl.to_string().into();
    }
    fields[2] = b"A6".into();
    fields[3] = length.to_string().into();
    if length < 128 || random.once_in(2) {
        let address = u128::from_be_bytes(record[4..OWNER].try_into().expect("sixteen octets"));
        // The first bits may be any.
        let first = if random.once_in(2) { 0 } else { self::address(random) & !a6::suffix(length) };
        address_text(random, address | first, &mut fields[4]);
    }
    if length > 0 {
        name_text(random, name_in(record, TARGET), &mut fields[5]);
    }
    fields
}

/// Some spelling of a name in standard form.
fn name_text(random: &mut Random, name: &[u8], text: &mut Vec<u8>) {
    // Of so many octets that could stand plain one is escaped.
    let escaped = random.pick(&[usize::MAX, usize::MAX, 8, 2, 1]);
    if name.len() == 1 {
        text.push(b'.');
    }
    let mut at = 0;
    while name[at] != 0 {
        if name[at] == 65 {
            let count = if name[at + 1] == 0 { 256 } else { name[at + 1] as usize };
            bits_text(random, count, &name[at + 2..], text);
            at += 2 + count.div_ceil(8);
        } else {
            let size = name[at] as usize;
            for octet in &name[at + 1..at + 1 + size] {
                let plain = octet.is_ascii_alphanumeric() || b"-_".contains(octet);
                if plain && (escaped == usize::MAX || !random.once_in(escaped)) {
                    text.push(*octet);
                } else {
                    text.extend(format!("\\{octet:03}").bytes());
                }
            }
            text.push(b'.');
            at += 1 + size;
        }
    }
}

/// A run of bits in any number of labels, each with its dot. The lowest bits come first.
pub fn bits_text(random: &mut Random, count: usize, octets: &[u8], text: &mut Vec<u8>) {
    let mut left = count;
    let most = random.pick(&[256, 256, 256, 64, 9, 4, 1]);
    while left > 0 {
        let lower = if most == 256 && random.once_in(2) { left } else { random.between(1, left.min(most)) };
        left -= lower;
        bit_label(random, lower, &names::moved(octets, left, lower), text);
        text.push(b'.');
    }
}

/// A bit label of the first bits of these octets, the others zero: digits of either case, the count where it must be
/// there, and else now and then.
fn bit_label(random: &mut Random, count: usize, octets: &[u8], text: &mut Vec<u8>) {
    text.extend(b"\\[x");
    let capitals = random.once_in(2);
    for place in 0..count.div_ceil(4) {
        let digit = b"0123456789abcdef"[(octets[place / 2] >> (4 - place % 2 * 4)) as usize & 15];
        text.push(if capitals || random.once_in(4) { digit.to_ascii_uppercase() } else { digit });
    }
    if !count.is_multiple_of(4) || random.once_in(2) {
        text.extend(format!("/{count}").bytes());
    }
    text.push(b']');
}

/// An address in any form of RFC 4291 without a dotted quad.
pub fn address_text(random: &mut Random, address: u128, text: &mut Vec<u8>) {
    let groups: [u16; 8] = std::array::from_fn(|at| (address >> (112 - 16 * at)) as u16);
    // The groups that `::` stands for: some that are zero, side by side.
    let (mut begin, mut end) = (8, 8);
    let zeros: Vec<usize> = (0..8).filter(|at| groups[*at] == 0).collect();
    if !zeros.is_empty() && !random.once_in(4) {
        begin = random.pick(&zeros);
        let run = groups[begin..].iter().take_while(|group| **group == 0).count();
        end = begin + if random.once_in(2) { run } else { random.between(1, run) };
    }
    let (zeros, capitals) = (random.once_in(2), random.once_in(2));
    for (at, group) in groups.iter().enumerate() {
        if at == begin {
            text.extend(b"::");
        }
        if (begin..end).contains(&at) {
            continue;
        }
        if at > 0 && at != end {
            text.push(b':');
        }
        let width = if zeros { random.between(1, 4) } else { 1 };
        let digits = if capitals { format!("{group:0width$X}") } else { format!("{group:0width$x}") };
        text.extend(digits.bytes());
    }
}

/// The line of these fields: one space between them, or blanks.
fn joined(random: &mut Random, fields: &Fields, line: &mut Vec<u8>) {
    line.clear();
    for field in fields.iter().filter(|field| !field.is_empty()) {
        if !line.is_empty() {
            let blanks = random.pick(&[1, 1, 1, 2, 4]);
            line.extend((0..blanks).map(|_| if blanks == 1 { b' ' } else { random.pick(b" \t") }));
        }
        line.extend(field);
    }
    if random.once_in(16) {
        line.iter_mut().filter(|octet| **octet == b' ').for_each(|octet| *octet = b'\t');
    }
    line.push(b'\n');
}

/// A good line. Gives the record that it says.
pub fn good(random: &mut Random, made: &mut Name, line: &mut Vec<u8>) -> [u8; RECORD] {
    let record = record(random, made);
    let fields = spelt(random, &record);
    joined(random, &fields, line);
    record
}

// Damage.

/// Octets that mean something in lines, in other zone files or in numbers.
pub const OCTETS: &[u8] = b" \t\n\r.\\[]x/:0123456789abcdefABCDEFgGzZ-_;()\"$@%+*,#\0\x7f\xff";

/// A line, good or damaged: in a field, in several, in octets.
pub fn any(random: &mut Random, made: &mut Name, line: &mut Vec<u8>) {
    let record = record(random, made);
    let mut fields = spelt(random, &record);
    let kind = random.below(8);
    if (2..6).contains(&kind) {
        for _ in 0..random.pick(&[1, 1, 1, 2, 2, 3]) {
            damage(random, &mut fields);
        }
    }
    joined(random, &fields, line);
    if kind >= 5 {
        for _ in 0..random.pick(&[1, 1, 1, 2, 4]) {
            edit(random, line);
        }
    }
}

/// One octet left out, put in, or changed.
fn edit(random: &mut Random, line: &mut Vec<u8>) {
    let octet = if random.once_in(8) { random.octet() } else { random.pick(OCTETS) };
    let at = random.below(line.len().max(1));
    match random.below(3) {
        0 if !line.is_empty() => {
            line.remove(at);
        }
        1 if !line.is_empty() => line[at] = octet,
        _ => line.insert(at, octet),
    }
}

/// Damages one field, or the order of fields. What comes of it may be a good line, in other words.
fn damage(random: &mut Random, fields: &mut Fields) {
    let at = random.below(fields.len());
    match random.below(16) {
        0 => fields[1] = large(random, LONGEST as u64),
        1 => fields[3] = large(random, 128),
        // Another prefix length, which the other fields may not go with.
        2 => fields[3] = random.pick(&[0, 1, 64, 127, 128]).to_string().into(),
        3 => fields[random.pick(&[1, 3])] = no_decimal(random),
        4 => fields[2] = random.pick(&["a6", "A", "A66", "AAAA", "IN", "A6.", "IN A6"]).into(),
        5 => fields[at].clear(),
        6 => fields.swap(at, (at + 1) % 6),
        7 => {
            let other = fields[(at + random.between(1, 5)) % 6].clone();
            fields[at].extend(other);
        }
        8 => {
            let wrong =
                [":", ":::", "1:::2", "12345::", "1::2::3", "::1.2.3.4", "::1%1", "::1/64", "1:2:3:4:5:6:7:", "::g"];
            fields[4] = random.pick(&wrong).into();
        }
        _ => {
            let label = wrong_label(random);
            let name = if fields[5].is_empty() || random.once_in(2) { &mut fields[0] } else { &mut fields[5] };
            // At its beginning, or at its end before the root.
            if random.once_in(2) && name != b"." {
                name.extend(&label);
                name.push(b'.');
            } else {
                let rest = if name == b"." { vec![] } else { std::mem::take(name) };
                *name = [&label[..], b".", &rest].concat();
            }
        }
    }
}

/// A decimal over this one: by one, by little, by powers of two, by very much.
fn large(random: &mut Random, most: u64) -> Vec<u8> {
    let bits = random.pick(&[8, 16, 31, 32, 32, 33, 63, 64, 64, 65]);
    let number = match random.below(4) {
        0 => most as u128 + 1,
        1 => most as u128 + random.between(1, 300) as u128,
        2 => (1_u128 << bits) + random.below(200) as u128,
        _ => return vec![b'9'; random.between(4, 1_000)],
    };
    number.to_string().into()
}

/// No decimal, or one with needless zeros.
fn no_decimal(random: &mut Random) -> Vec<u8> {
    let number = random.below(130);
    match random.below(6) {
        0 => format!("0{number}"),
        1 => format!("+{number}"),
        2 => format!("-{number}"),
        3 => format!("{number}h"),
        4 => format!("0x{number:x}"),
        _ => format!("{number}.0"),
    }
    .into()
}

/// A label that is of no good form, out of range or too long, or nearly so.
fn wrong_label(random: &mut Random) -> Vec<u8> {
    let zeros = |digits: usize| "0".repeat(digits);
    match random.below(20) {
        // An octet out of range; escapes that are none.
        0 | 1 => format!("a\\{}", random.between(250, 999)),
        2 => random.pick(&["\\", "\\1", "\\12", "\\a", "\\12a", "\\1 2", "\\["]).into(),
        // Labels of 60 to 66 octets.
        3 | 4 => "y".repeat(random.between(60, 66)),
        5 => "\\065".repeat(random.between(60, 66)),
        // Names that get too long.
        6..=8 => ["z"; 63].concat() + &".z".repeat(random.between(60, 100)),
        // Runs that get too long, and such that are cut off by a label.
        9 | 10 => format!("\\[x{}].\\[x0/{}]", zeros(random.between(60, 64)), random.between(1, 4)),
        11 | 12 => ["\\[x8/1]"; 260][..random.between(240, 260)].join("."),
        // Counts at the edge, with as many digits as they need.
        13 | 14 => {
            let count: usize = random.between(250, 264);
            format!("\\[x{}/{count}]", zeros(count.div_ceil(4)))
        }
        15 => format!("\\[x{}]", zeros(random.between(62, 67))),
        // Counts that do not go with their digits, and bits that are set after the last one.
        16 => format!("\\[x{}/{}]", zeros(random.between(1, 4)), random.between(0, 20)),
        17 => format!("\\[x{:X}/{}]", random.between(0, 15), random.between(1, 4)),
        _ => {
            let bits = ["\\[x]", "\\[x/4]", "\\[X12]", "\\[12/8]", "\\[b1010/4]", "\\[x12/8]a", "a\\[x12/8]", "\\[x12"];
            let counts = ["", "\\[x12/300]", "\\[x12/08]", "\\[x12/]", "\\[x12/+8]", "\\[x12/8/8]", "\\[xG/4]"];
            if random.once_in(2) { random.pick(&bits) } else { random.pick(&counts) }.into()
        }
    }
    .into()
}

// Lines of plans, and lines that cost most.

/// The A6 records of a table in order, the first ones again, up to 1,024; and the line of each.
pub fn of_plan(table: &[u8]) -> (Vec<Vec<u8>>, Vec<Vec<u8>>) {
    let records = table.chunks(RECORD).filter(|record| record[1] == plan::A6);
    let records: Vec<Vec<u8>> = records.cycle().take(MOST).map(|record| record.to_vec()).collect();
    let lines = records.iter().map(|record| written(record)).collect();
    (records, lines)
}

/// The line of a record in order, as the reference writes it.
fn written(record: &[u8]) -> Vec<u8> {
    let (mut line, mut figures) = (vec![0; LINE], [0; 2]);
    assert_eq!(reference::line::write_line(record, &mut line, &mut figures), 0);
    line.truncate(figures[0] as usize);
    line
}

/// The record whose line is longest: four labels of escapes in each name, the longest TTL, no zero in the address.
pub fn longest() -> [u8; RECORD] {
    let (name, _) = plan::full_name(63, 0xff);
    let mut record = a6_record(&name, 1, u128::MAX, &name);
    put_ttl(&mut record, LONGEST);
    record
}

/// Lines that are longer than any plan's: what is in them, and the numbers that they earn.
pub fn crafted() -> [(&'static str, Vec<u8>, u32); 4] {
    const OCTETS: usize = 1 << 16;
    let bits = ("\\[x8/1].".repeat(256) + "a.").repeat(7);
    let escapes = ("\\255".repeat(63) + ".").repeat(OCTETS / 253);
    [
        ("blanks", format!("h.a.{}300 A6 64 ::7 p.a.\n", " \t".repeat(OCTETS / 2)), 0),
        ("labels of one bit", format!("{bits} 300 A6 64 ::7 {bits}\n"), 0),
        ("escapes", format!("{escapes} 300 A6 64 ::7 p.a.\n"), 22),
        ("digits of a number", format!("h.a. {} A6 64 ::7 p.a.\n", "9".repeat(OCTETS)), 21),
    ]
    .map(|(kind, line, number)| (kind, line.into_bytes(), number))
}
