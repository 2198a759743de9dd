//! Names and numbers as people write them.

use crate::generate::names::Name;

/// The octets of a name in text: labels with points between them, a last point or none; in a label a backslash before
/// three digits gives the octet of that number, before another letter that letter; a bit label is written as in
/// RFC 2673 in hexadecimal, `\[x8A4/12]`, with the number of its bits or all that its digits hold.
pub fn name(text: &str) -> Vec<u8> {
    let mut name = Name::new();
    let mut label = Vec::new();
    let mut rest = text.as_bytes();
    while let Some((letter, after)) = rest.split_first() {
        rest = after;
        match letter {
            b'.' => {
                if !label.is_empty() {
                    name.label(&label);
                }
                label.clear();
            }
            b'\\' if rest.starts_with(b"[x") => {
                let end = rest.iter().position(|letter| *letter == b']').expect("the end of a bit label");
                bit_label(&mut name, std::str::from_utf8(&rest[2..end]).expect("digits"));
                rest = &rest[end + 1..];
            }
            b'\\' if rest[0].is_ascii_digit() => {
                label.push(std::str::from_utf8(&rest[..3]).expect("digits").parse().expect("an octet"));
                rest = &rest[3..];
            }
            b'\\' => {
                label.push(rest[0]);
                rest = &rest[1..];
            }
            _ => label.push(*letter),
        }
    }
    if !label.is_empty() {
        name.label(&label);
    }
    name.end();
    name.octets
}

/// Adds the bit label with these digits and this count, `8A4/12`.
fn bit_label(name: &mut Name, text: &str) {
    let (digits, count) = text.split_once('/').unwrap_or((text, ""));
    let count = if count.is_empty() { 4 * digits.len() } else { count.parse().expect("a count") };
    let mut octets = [0; 32];
    for (at, digit) in digits.chars().enumerate() {
        octets[at / 2] |= (digit.to_digit(16).expect("a digit") as u8) << (4 - at % 2 * 4);
    }
    name.bits(count, &octets);
}

/// A number with a comma before its last three digits.
pub fn grouped(number: usize) -> String {
    if number < 1_000 {
        return number.to_string();
    }
    format!("{},{:03}", number / 1_000, number % 1_000)
}
