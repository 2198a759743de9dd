//! Numbers, addresses and names in text (T-06), from left to right: a reader and a writer.

use super::names::{bits_of, Bits, BIT_LABEL, NAME, RUN, SLOT};

/// The most octets in an ordinary label.
const LABEL: usize = 63;
/// The end of a line.
const END: u8 = 10;

/// The octets that stand for themselves in a label: letters, digits, hyphen and underscore.
static PLAIN: [bool; 256] = {
    let mut plain = [false; 256];
    let mut octet = 0;
    while octet < 256 {
        plain[octet] = (octet as u8).is_ascii_alphanumeric() || octet as u8 == b'-' || octet as u8 == b'_';
        octet += 1;
    }
    plain
};

/// No hexadecimal digit.
const NONE: u8 = 16;

/// What each octet is as a hexadecimal digit.
static HEX: [u8; 256] = {
    let mut values = [NONE; 256];
    let mut value = 0;
    while value < 16 {
        values[b"0123456789abcdef"[value] as usize] = value as u8;
        values[b"0123456789ABCDEF"[value] as usize] = value as u8;
        value += 1;
    }
    values
};

fn is_blank(octet: u8) -> bool {
    octet == b' ' || octet == b'\t'
}

/// A line in reading. Its last octet is 10, which nothing here takes, so there is always a next one. What is not of the
/// form asked for is None.
pub struct Reader<'a> {
    line: &'a [u8],
    at: usize,
    /// Some number was out of range.
    pub beyond: bool,
    /// Some label, run or name was too long.
    pub long: bool,
}

impl<'a> Reader<'a> {
    pub fn new(line: &'a [u8]) -> Option<Reader<'a>> {
        (*line.last()? == END).then_some(Reader { line, at: 0, beyond: false, long: false })
    }

    #[inline(always)]
    fn next(&self) -> u8 {
        self.line[self.at]
    }

    pub fn is_at(&self, word: &[u8]) -> bool {
        self.line[self.at..].starts_with(word)
    }

    pub fn word(&mut self, word: &[u8]) -> Option<()> {
        let there = self.is_at(word);
        self.at += word.len();
        there.then_some(())
    }

    /// One blank or more.
    pub fn blanks(&mut self) -> Option<()> {
        let begin = self.at;
        while is_blank(self.next()) {
            self.at += 1;
        }
        (self.at > begin).then_some(())
    }

    /// No blank follows.
    pub fn is_last_field(&self) -> bool {
        !self.line[self.at..].iter().any(|octet| is_blank(*octet))
    }

    /// The line ends here.
    pub fn end(&self) -> Option<()> {
        (self.at + 1 == self.line.len()).then_some(())
    }

    /// A decimal without needless zeros. One that is more than 64 bits hold is the most that they hold.
    #[inline(always)]
    pub fn decimal(&mut self) -> Option<u64> {
        let begin = self.at;
        let mut number = 0_u64;
        while self.next().is_ascii_digit() {
            number = number.saturating_mul(10).saturating_add((self.next() - b'0') as u64);
            self.at += 1;
        }
        match &self.line[begin..self.at] {
            [] | [b'0', _, ..] => None,
            _ => Some(number),
        }
    }

    /// A decimal that is out of range over this one.
    #[inline(always)]
    pub fn decimal_to(&mut self, most: u64) -> Option<u64> {
        let number = self.decimal()?;
        self.beyond |= number > most;
        Some(number)
    }

    /// One to four hexadecimal digits.
    #[inline(always)]
    fn group(&mut self) -> Option<u128> {
        let begin = self.at;
        let mut group = 0;
        while HEX[self.next() as usize] != NONE {
            if self.at - begin == 4 {
                return None;
            }
            group = group << 4 | HEX[self.next() as usize] as u128;
            self.at += 1;
        }
        (self.at > begin).then_some(group)
    }

    /// An address in any form of RFC 4291, section 2.2, but those with a dotted quad.
    pub fn address(&mut self) -> Option<u128> {
        // The groups so far, how many they are, and how many of them stood before `::`.
        let (mut groups, mut count, mut before) = (0_u128, 0, None);
        if self.is_at(b"::") {
            self.at += 2;
            before = Some(0);
        }
        while before != Some(count) || HEX[self.next() as usize] != NONE {
            if count == 8 {
                return None;
            }
            groups = groups << 16 | self.group()?;
            count += 1;
            if self.next() != b':' {
                break;
            }
            self.at += 1;
            if self.next() == b':' {
                if before.is_some() {
                    return None;
                }
                self.at += 1;
                before = Some(count);
            }
        }
        match before {
            None => (count == 8).then_some(groups),
            Some(_) if count == 8 => None,
            Some(0) => Some(groups),
            Some(before) => {
                let after = count - before;
                Some(groups >> (16 * after) << (16 * (8 - before)) | groups & !(u128::MAX << (16 * after)))
            }
        }
    }

    /// A name with its last dot, in standard form in a slot that was blank. One that is too long leaves anything there.
    #[inline(always)]
    pub fn name(&mut self, slot: &mut [u8; SLOT]) -> Option<()> {
        let mut run = Run { count: 0, bits: Bits::from(&[]) };
        // Where the next octet goes.
        let mut to = 1;
        if self.next() == b'.' {
            self.at += 1;
        } else {
            loop {
                if self.is_at(b"\\[") {
                    self.bit_label(&mut run)?;
                } else {
                    to = run.put(slot, to);
                    to = self.label(slot, to)?;
                }
                self.word(b".")?;
                if is_blank(self.next()) || self.next() == END {
                    break;
                }
            }
            to = run.put(slot, to);
        }
        if to > NAME {
            self.long = true;
        } else {
            slot[0] = to as u8;
        }
        Some(())
    }

    /// An ordinary label, from this place of the slot on. Gives the place after it.
    #[inline(always)]
    fn label(&mut self, slot: &mut [u8; SLOT], begin: usize) -> Option<usize> {
        let mut to = begin + 1;
        loop {
            let mut octet = self.next();
            if PLAIN[octet as usize] {
                self.at += 1;
            } else if octet == b'\\' {
                octet = self.escape()?;
            } else {
                break;
            }
            if to < SLOT {
                slot[to] = octet;
            }
            to += 1;
        }
        let size = to - begin - 1;
        self.long |= size > LABEL;
        if begin < SLOT {
            slot[begin] = size as u8;
        }
        (size > 0).then_some(to)
    }

    /// A backslash and three digits.
    fn escape(&mut self) -> Option<u8> {
        let digits = self.line.get(self.at + 1..self.at + 4)?;
        let mut number = 0_u32;
        for digit in digits {
            if !digit.is_ascii_digit() {
                return None;
            }
            number = number * 10 + (digit - b'0') as u32;
        }
        self.at += 4;
        self.beyond |= number > 255;
        Some(number as u8)
    }

    /// A bit label, which goes on a run.
    fn bit_label(&mut self, run: &mut Run) -> Option<()> {
        self.word(b"\\[x")?;
        let begin = self.at;
        let mut octets = [0; RUN / 8];
        let mut last = 0;
        while HEX[self.next() as usize] != NONE {
            last = HEX[self.next() as usize];
            let place = self.at - begin;
            if place < RUN / 4 {
                octets[place / 2] |= last << (4 - place % 2 * 4);
            }
            self.at += 1;
        }
        let digits = (self.at - begin) as u64;
        let count = if self.next() == b'/' {
            self.at += 1;
            self.decimal()?
        } else {
            4 * digits
        };
        self.word(b"]")?;
        if digits == 0 || count.div_ceil(4) != digits {
            return None;
        }
        let unused = 4 * digits - count;
        if last & ((1 << unused) - 1) != 0 {
            return None;
        }
        if count > RUN as u64 {
            self.beyond = true;
        } else {
            self.long |= !run.add(count as usize, Bits::from(&octets));
        }
        Some(())
    }
}

/// A run of bit labels.
struct Run {
    count: usize,
    bits: Bits,
}

impl Run {
    /// Adds a label: it stands to the right of those before, so its bits come first. False where there is no room for it.
    fn add(&mut self, count: usize, bits: Bits) -> bool {
        if self.count + count > RUN {
            return false;
        }
        self.bits = if self.count == 0 { bits } else { bits.or(self.bits.lowered(count)) };
        self.count += count;
        true
    }

    /// Puts the run, if it has bits, as one label to this place of a slot, and empties it. Gives the place after it.
    #[inline(always)]
    fn put(&mut self, slot: &mut [u8; SLOT], to: usize) -> usize {
        if self.count == 0 {
            return to;
        }
        let end = to + 2 + self.count.div_ceil(8);
        if end <= SLOT {
            slot[to] = BIT_LABEL;
            slot[to + 1] = self.count as u8;
            self.bits.put(&mut slot[to + 2..end]);
        }
        self.count = 0;
        end
    }
}

/// A line in writing. What has no room is counted and not kept.
pub struct Writer<'a> {
    out: &'a mut [u8],
    pub size: usize,
}

impl<'a> Writer<'a> {
    pub fn new(out: &'a mut [u8]) -> Writer<'a> {
        Writer { out, size: 0 }
    }

    #[inline(always)]
    pub fn put(&mut self, octet: u8) {
        if let Some(place) = self.out.get_mut(self.size) {
            *place = octet;
        }
        self.size += 1;
    }

    pub fn word(&mut self, word: &[u8]) {
        for octet in word {
            self.put(*octet);
        }
    }

    pub fn decimal(&mut self, number: u32) {
        let mut digits = [0; 10];
        let (mut first, mut rest) = (digits.len(), number);
        loop {
            first -= 1;
            digits[first] = b'0' + (rest % 10) as u8;
            rest /= 10;
            if rest == 0 {
                break;
            }
        }
        self.word(&digits[first..]);
    }

    /// An address by RFC 5952, section 4, without a dotted quad.
    pub fn address(&mut self, address: u128) {
        let groups: [u16; 8] = std::array::from_fn(|at| (address >> (112 - 16 * at)) as u16);
        // The longest run of zero groups, and the leftmost of those; one group alone is none.
        let (mut begin, mut end) = (8, 8);
        let mut at = 0;
        while at < 8 {
            let zeros = groups[at..].iter().take_while(|group| **group == 0).count();
            if zeros > (end - begin).max(1) {
                (begin, end) = (at, at + zeros);
            }
            at += zeros + 1;
        }
        for (at, group) in groups.iter().enumerate() {
            if at == begin {
                self.word(b"::");
            }
            if (begin..end).contains(&at) {
                continue;
            }
            if at > 0 && at != end {
                self.put(b':');
            }
            self.group(*group);
        }
    }

    #[inline(always)]
    fn group(&mut self, group: u16) {
        for place in (0..4).rev() {
            if place == 0 || group >> (4 * place) != 0 {
                self.put(b"0123456789abcdef"[(group >> (4 * place)) as usize & 15]);
            }
        }
    }

    /// A name in standard form.
    pub fn name(&mut self, name: &[u8]) {
        if name.len() == 1 {
            self.put(b'.');
        }
        let mut rest = name;
        while rest[0] != 0 {
            let size = if rest[0] == BIT_LABEL { 2 + bits_of(rest[1]).div_ceil(8) } else { 1 + rest[0] as usize };
            let (label, after) = rest.split_at(size);
            if label[0] == BIT_LABEL {
                self.bit_label(bits_of(label[1]), &label[2..]);
            } else {
                self.label(&label[1..]);
            }
            self.put(b'.');
            rest = after;
        }
    }

    #[inline(always)]
    fn label(&mut self, octets: &[u8]) {
        for octet in octets {
            if PLAIN[*octet as usize] {
                self.put(*octet);
            } else {
                self.word(&[b'\\', b'0' + octet / 100, b'0' + octet / 10 % 10, b'0' + octet % 10]);
            }
        }
    }

    fn bit_label(&mut self, count: usize, octets: &[u8]) {
        self.word(b"\\[x");
        for place in 0..count.div_ceil(4) {
            self.put(b"0123456789ABCDEF"[(octets[place / 2] >> (4 - place % 2 * 4)) as usize & 15]);
        }
        self.put(b'/');
        self.decimal(count as u32);
        self.put(b']');
    }
}
