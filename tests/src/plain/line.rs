//! Zone lines (T-06): a line is cut into fields and the fields into labels and groups; then each rule is asked of all of
//! them, and the next one only where it holds.

use super::names::{self, Unit};
use super::{address, answer, demand, plan, Answer};

/// The fields of a line in their places, as text.
struct Fields<'a> {
    owner: &'a [u8],
    ttl: &'a [u8],
    length: &'a [u8],
    address: &'a [u8],
    target: Option<&'a [u8]>,
}

/// The fields by their number and places alone: the second one `A6` has no TTL before it, a prefix length of 0 has no
/// target after the address, and one of 128 may have no address before the target.
fn fields(line: &[u8]) -> Option<Fields<'_>> {
    let parts: Vec<&[u8]> = line.strip_suffix(b"\n")?.split(|octet| b" \t".contains(octet)).collect();
    if parts[0].is_empty() || parts[parts.len() - 1].is_empty() {
        return None;
    }
    let mut parts: Vec<&[u8]> = parts.into_iter().filter(|part| !part.is_empty()).collect();
    if parts.get(1) == Some(&&b"A6"[..]) {
        parts.insert(1, b"300");
    }
    let [owner, ttl, b"A6", length, rest @ ..] = &parts[..] else { return None };
    let (address, target) = match (*length, rest) {
        (b"0", [address]) => (*address, None),
        (b"0", _) => return None,
        (b"128", [target]) => (&b"::"[..], Some(*target)),
        (_, [address, target]) => (*address, Some(*target)),
        _ => return None,
    };
    Some(Fields { owner, ttl, length, address, target })
}

/// A decimal without needless zeros.
fn is_decimal(text: &[u8]) -> bool {
    !text.is_empty() && text.iter().all(u8::is_ascii_digit) && (text[0] != b'0' || text.len() == 1)
}

/// Decimals are compared by their lengths, those of one length digit by digit.
fn is_at_most(text: &[u8], most: &str) -> bool {
    (text.len(), text) <= (most.len(), most.as_bytes())
}

/// The number of a decimal that is not too large for it.
fn number(text: &[u8]) -> u32 {
    std::str::from_utf8(text).expect("digits").parse().expect("a number")
}

/// The values of hexadecimal digits of either case.
fn hex(text: &[u8]) -> Option<Vec<u8>> {
    text.iter().map(|digit| Some((*digit as char).to_digit(16)? as u8)).collect()
}

/// The groups of a part of an address, none where it is empty.
fn groups(text: &[u8]) -> Option<Vec<u16>> {
    if text.is_empty() {
        return Some(vec![]);
    }
    let group = |text: &[u8]| {
        let digits = hex(text).filter(|digits| (1..=4).contains(&digits.len()))?;
        Some(digits.iter().fold(0, |group, digit| group * 16 + *digit as u16))
    };
    text.split(|octet| *octet == b':').map(group).collect()
}

/// The octets of an address in any form of RFC 4291 without a dotted quad: eight groups, or fewer on both sides of `::`.
fn read_address(text: &[u8]) -> Option<Vec<u8>> {
    let parted = text.windows(2).position(|two| two == b"::");
    let all = match parted {
        None => groups(text).filter(|groups| groups.len() == 8)?,
        Some(at) => {
            let (left, right) = (groups(&text[..at])?, groups(&text[at + 2..])?);
            let zeros = 8_usize.checked_sub(left.len() + right.len()).filter(|zeros| *zeros > 0)?;
            [left, vec![0; zeros], right].concat()
        }
    };
    Some(all.iter().flat_map(|group| group.to_be_bytes()).collect())
}

/// A label in text: an ordinary one with the numbers of its octets, or the bits of a bit label.
enum Label {
    Octets(Vec<usize>),
    Bits(Vec<bool>),
}

fn label(text: &[u8]) -> Option<Label> {
    match text.strip_prefix(b"\\[") {
        Some(rest) => bits(rest.strip_prefix(b"x")?.strip_suffix(b"]")?).map(Label::Bits),
        None => octets(text).map(Label::Octets),
    }
}

/// The octets of an ordinary label that is not empty, each plain or escaped.
fn octets(text: &[u8]) -> Option<Vec<usize>> {
    let mut octets = Vec::new();
    let mut rest = text;
    while !rest.is_empty() {
        let (octet, size) = match rest {
            [b'a'..=b'z' | b'A'..=b'Z' | b'0'..=b'9' | b'-' | b'_', ..] => (rest[0] as usize, 1),
            [b'\\', digits @ ..] => {
                let digits = digits.get(..3).filter(|digits| digits.iter().all(u8::is_ascii_digit))?;
                (number(digits) as usize, 4)
            }
            _ => return None,
        };
        octets.push(octet);
        rest = &rest[size..];
    }
    (!octets.is_empty()).then_some(octets)
}

/// The bits of `8A4/12` or `8A4`. So many digits hold one of four counts, and the bits after it are zero.
fn bits(text: &[u8]) -> Option<Vec<bool>> {
    let mut parts = text.splitn(2, |octet| *octet == b'/');
    let digits = hex(parts.next()?).filter(|digits| !digits.is_empty())?;
    let most = 4 * digits.len();
    let count = match parts.next() {
        None => most,
        Some(given) => (most - 3..=most).find(|count| count.to_string().as_bytes() == given)?,
    };
    let mut bits: Vec<bool> =
        digits.iter().flat_map(|digit| (0..4).map(move |bit| digit >> (3 - bit) & 1 == 1)).collect();
    let unused = bits.split_off(count);
    (!unused.contains(&true)).then_some(bits)
}

/// The labels of a name, none for the root: what stands before each of its dots, of which the last ends it.
fn labels(text: &[u8]) -> Option<Vec<Label>> {
    let text = text.strip_suffix(b".")?;
    if text.is_empty() {
        return Some(vec![]);
    }
    text.split(|octet| *octet == b'.').map(label).collect()
}

fn is_in_range(label: &Label) -> bool {
    match label {
        Label::Octets(octets) => octets.iter().all(|octet| *octet < 256),
        Label::Bits(bits) => bits.len() <= 256,
    }
}

/// The units of labels in range, lowest first.
fn units(labels: &[Label]) -> Vec<Unit> {
    let mut units = Vec::new();
    for label in labels {
        match label {
            Label::Octets(octets) => units.push(Unit::Label(octets.iter().map(|octet| *octet as u8).collect())),
            Label::Bits(bits) => units.extend(bits.iter().rev().map(|bit| Unit::Bit(*bit))),
        }
    }
    units
}

/// No label and no run is too long, nor the name that they make.
fn is_short_enough(units: &[Unit]) -> bool {
    let is_short = |unit: &Unit| !matches!(unit, Unit::Label(octets) if octets.len() > 63);
    units.iter().all(is_short) && names::longest_run(units) <= 256 && names::encode(units).len() <= 255
}

/// The slot of a name; a blank one for none.
fn slot(units: Option<&[Unit]>) -> Vec<u8> {
    let name = units.map_or(vec![], names::encode);
    let mut slot = vec![name.len() as u8];
    slot.extend(name);
    slot.resize(256, 0);
    slot
}

/// The record that a line says, or 20, 21 or 22.
pub fn read(line: &[u8]) -> Result<Vec<u8>, u32> {
    let parted = || {
        let fields = fields(line)?;
        let address = read_address(fields.address)?;
        let (owner, target) = (labels(fields.owner)?, fields.target.map_or(Some(vec![]), labels)?);
        (is_decimal(fields.ttl) && is_decimal(fields.length)).then_some((fields, owner, address, target))
    };
    let (fields, owner, address, target) = parted().ok_or(20_u32)?;
    demand(21, is_at_most(fields.ttl, "2147483647") && is_at_most(fields.length, "128"))?;
    demand(21, owner.iter().chain(&target).all(is_in_range))?;
    let (owner, target) = (units(&owner), units(&target));
    demand(22, is_short_enough(&owner) && is_short_enough(&target))?;
    let length = number(fields.length) as u8;
    let address = address::join(&[0; 16], &address, length as usize);
    let (owner, target) = (slot(Some(&owner)), slot(fields.target.map(|_| &target[..])));
    Ok([&[0, 38, length, 0], &address[..], &owner, &target, &number(fields.ttl).to_be_bytes()].concat())
}

/// An address by RFC 5952, never with a dotted quad: of all runs of two zero groups or more the first of the longest.
pub fn address_text(octets: &[u8]) -> String {
    let groups: Vec<u16> = octets.chunks(2).map(|two| u16::from_be_bytes([two[0], two[1]])).collect();
    let text = |groups: &[u16]| groups.iter().map(|group| format!("{group:x}")).collect::<Vec<_>>().join(":");
    for size in (2..=8).rev() {
        for at in 0..=8 - size {
            if groups[at..at + size].iter().all(|group| *group == 0) {
                return format!("{}::{}", text(&groups[..at]), text(&groups[at + size..]));
            }
        }
    }
    text(&groups)
}

/// A name: its labels, each run of bits as one, and a dot after each; the root is a dot.
fn name_text(units: &[Unit]) -> String {
    let mut text = String::new();
    for run in units.chunk_by(|one, other| matches!((one, other), (Unit::Bit(_), Unit::Bit(_)))) {
        text += &match &run[0] {
            Unit::Label(octets) => octets.iter().map(|octet| octet_text(*octet)).collect(),
            Unit::Bit(_) => bits_text(run),
        };
        text += ".";
    }
    if text.is_empty() {
        ".".into()
    } else {
        text
    }
}

fn octet_text(octet: u8) -> String {
    match octet {
        b'a'..=b'z' | b'A'..=b'Z' | b'0'..=b'9' | b'-' | b'_' => (octet as char).into(),
        _ => format!("\\{octet:03}"),
    }
}

fn bits_text(run: &[Unit]) -> String {
    let bits: Vec<bool> = run.iter().rev().map(|unit| *unit == Unit::Bit(true)).collect();
    let digit = |four: &[bool]| (0..4).fold(0, |digit, bit| digit * 2 + (four.get(bit) == Some(&true)) as u32);
    let digits: String = bits.chunks(4).map(|four| format!("{:X}", digit(four))).collect();
    format!("\\[x{digits}/{}]", bits.len())
}

/// The line of a record, or 2.
pub fn write(record: &[u8]) -> Result<Vec<u8>, u32> {
    demand(2, record.len() == plan::RECORD && record[..2] == [0, 38] && plan::fault(record).is_none())?;
    let name = |slot: &[u8]| name_text(&plan::name_in(slot).expect("a name"));
    let (owner, ttl, length) = (name(plan::owner_slot(record)), plan::ttl(record), record[2]);
    let target = if length == 0 { String::new() } else { format!(" {}", name(plan::target_slot(record))) };
    Ok(format!("{owner} {ttl} A6 {length} {}{target}\n", address_text(&record[4..20])).into_bytes())
}

/// The answer of `a6plan_read_line` for an output and figures of these lengths.
pub fn read_answer(line: &[u8], out: usize, figures: usize) -> Answer {
    let given = || {
        demand(5, figures == 2)?;
        let record = read(line)?;
        demand(23, out >= plan::RECORD)?;
        Ok((record, [1, 0]))
    };
    answer(given(), out, figures)
}

/// The answer of `a6plan_write_line` for an output and figures of these lengths.
pub fn write_answer(record: &[u8], out: usize, figures: usize) -> Answer {
    let given = || {
        demand(5, figures == 2)?;
        let line = write(record)?;
        demand(23, out >= line.len())?;
        let size = line.len() as u32;
        Ok((line, [size, 0]))
    };
    answer(given(), out, figures)
}
