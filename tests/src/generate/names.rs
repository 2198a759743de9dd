//! Names, good and damaged.

use super::Random;

/// A name in the making: its octets, where its labels begin, and the bits in the run it ends with.
#[derive(Clone, Default)]
pub struct Name {
    pub octets: Vec<u8>,
    pub starts: Vec<usize>,
    run: usize,
}

/// Letters, digits and the hyphen, as in host names.
const HOST: &[u8] = b"abcdefghijklmnopqrstuvwxyzABCDEFGHIJKLMNOPQRSTUVWXYZ0123456789-";

impl Name {
    pub fn new() -> Name {
        Name::default()
    }

    pub fn clear(&mut self) {
        self.octets.clear();
        self.starts.clear();
        self.run = 0;
    }

    /// Adds an ordinary label of these octets, 1 to 63.
    pub fn label(&mut self, octets: &[u8]) {
        self.starts.push(self.octets.len());
        self.octets.push(octets.len() as u8);
        self.octets.extend_from_slice(octets);
        self.run = 0;
    }

    /// Adds a bit label of the first `count` bits of `octets`, 1 to 256.
    pub fn bits(&mut self, count: usize, octets: &[u8]) {
        let size = count.div_ceil(8);
        self.starts.push(self.octets.len());
        self.octets.push(65);
        self.octets.push(count as u8);
        self.octets.extend_from_slice(&octets[..size]);
        let last = self.octets.len() - 1;
        self.octets[last] &= (0xff00_u16 >> (count - (size - 1) * 8)) as u8;
        self.run += count;
    }

    /// Adds the zero octet.
    pub fn end(&mut self) {
        self.starts.push(self.octets.len());
        self.octets.push(0);
    }

    /// Adds an ordinary label of `length` octets: letters mostly, any octets now and then.
    fn some_label(&mut self, random: &mut Random, length: usize) {
        let mut octets = [0; 63];
        let any = random.once_in(8);
        for octet in &mut octets[..length] {
            *octet = if any { random.octet() } else { random.pick(HOST) };
        }
        self.label(&octets[..length]);
    }

    /// Adds a bit label of `count` bits.
    fn some_bits(&mut self, random: &mut Random, count: usize) {
        let mut octets = [0; 32];
        match random.below(8) {
            0 => {}
            1 => octets.fill(0xff),
            _ => octets.fill_with(|| random.octet()),
        }
        self.bits(count, &octets);
    }

    /// Adds bit labels with `total` bits between them, 1 to 512, in at most `pieces` pieces.
    fn some_run(&mut self, random: &mut Random, total: usize, pieces: usize) {
        let mut left = total;
        let mut pieces = pieces;
        while left > 0 {
            let most = left.min(256);
            let count = if pieces <= 1 { most } else { random.between(1, most) };
            self.some_bits(random, count);
            left -= count;
            pieces -= (pieces > 1) as usize;
        }
    }

    /// Adds labels up to `total` octets, the zero octet not counted. At most 256 bits stand in a run. `bits` of 8
    /// labels are bit labels, as far as there is room.
    fn fill_to(&mut self, random: &mut Random, total: usize, longest: usize, bits: usize) {
        while self.octets.len() < total {
            let left = total - self.octets.len();
            if left == 1 {
                // No label is so short: begin again.
                self.clear();
                continue;
            }
            let size = random.between(2, left.min(longest.max(2)));
            let octets = size.saturating_sub(2).min(32);
            let count = if octets == 0 { 0 } else { (octets - 1) * 8 + random.between(1, 8) };
            if count > 0 && self.run + count <= 256 && random.below(8) < bits {
                self.some_bits(random, count);
            } else {
                self.some_label(random, (size - 1).min(63));
            }
        }
    }
}

/// A well-formed name, of any of the shapes that matter: short host names, reverse names, mixed labels, runs of up
/// to 256 bits, names of up to 255 octets, many small labels, the root.
pub fn good(random: &mut Random, name: &mut Name) {
    shaped(random, name, 0);
}

/// As `good`, but half of the long runs and long names are too long.
fn near_limits(random: &mut Random, name: &mut Name) {
    shaped(random, name, 4);
}

/// Runs and names go up to `over` bits or octets beyond what is allowed.
fn shaped(random: &mut Random, name: &mut Name, over: usize) {
    name.clear();
    match random.below(16) {
        0 => {}
        1..=3 => {
            for _ in 0..random.between(1, 5) {
                let length = random.between(1, 12);
                name.some_label(random, length);
            }
        }
        4..=6 => {
            let total = random.between(1, 128);
            let pieces = random.between(1, 6);
            name.some_run(random, total, pieces);
            name.label(b"IP6");
            name.label(b"ARPA");
        }
        7..=9 => {
            let total = random.between(2, 100);
            let bits = random.between(1, 8);
            name.fill_to(random, total, 16, bits);
        }
        10..=11 => {
            if random.once_in(2) {
                let length = random.between(1, 30);
                name.some_label(random, length);
            }
            let total = random.between(256 - over.max(4), 256 + over);
            let pieces = random.between(1, 12);
            name.some_run(random, total, pieces);
            if random.once_in(2) {
                let length = random.between(1, 30);
                name.some_label(random, length);
            }
            if over == 0 || random.once_in(2) {
                return name.end();
            }
            let total = random.between(1, 256);
            name.some_run(random, total, 2);
        }
        12..=14 => {
            let total = random.between(254 - over.max(4), 254 + over);
            let longest = random.pick(&[3, 4, 10, 34, 64]);
            let bits = random.between(0, 8);
            name.fill_to(random, total, longest, bits);
        }
        _ => {
            let total = random.between(20, 254);
            let bits = random.between(0, 8);
            name.fill_to(random, total, 3, bits);
        }
    }
    name.end();
}

/// A well-formed name in standard form: as `good`, but no two bit labels side by side.
pub fn standard(random: &mut Random, name: &mut Name) {
    loop {
        good(random, name);
        let bit_label = |start: usize| name.octets[start] == 65;
        if !name.starts.windows(2).any(|pair| bit_label(pair[0]) && bit_label(pair[1])) {
            return;
        }
    }
}

/// A well-formed name of exactly `total` octets, 1 or 3 to 255, with at most `longest` octets in a label.
pub fn of_length(random: &mut Random, name: &mut Name, total: usize, longest: usize, bits: usize) {
    name.clear();
    name.fill_to(random, total - 1, longest, bits);
    name.end();
}

/// A name, good or damaged in some way.
pub fn any(random: &mut Random, name: &mut Name) {
    match random.below(8) {
        0..=2 => good(random, name),
        3 => near_limits(random, name),
        _ => {
            near_limits(random, name);
            damage(random, name);
        }
    }
}

/// Damages the octets of a name in one way. What comes of it may happen to be a name again.
pub fn damage(random: &mut Random, name: &mut Name) {
    let start = random.pick(&name.starts);
    let octets = &mut name.octets;
    let somewhere = random.below(octets.len());
    match random.below(13) {
        // Cut short.
        0 => octets.truncate(somewhere),
        1 => octets.truncate(octets.len() - 1),
        // Octets after the end.
        2 => octets.extend((0..random.between(1, 3)).map(|_| 0)),
        3 => {
            let more = random.between(1, 40);
            octets.extend((0..more).map(|_| random.octet()));
        }
        // A first octet that no label has, a compression pointer, an early end.
        4 => octets[start] = random.pick(&[64, 66, 67, 127, 128, 129, 191, 192, 193, 255]),
        5 => {
            octets.truncate(start);
            octets.extend([0xc0, random.octet()]);
        }
        6 => octets[start] = 0,
        // Bits set after the last one of a bit label.
        7 | 8 => {
            let uneven = |at: &usize| octets[*at] == 65 && !octets[*at + 1].is_multiple_of(8);
            let labels: Vec<usize> = name.starts.iter().copied().filter(uneven).collect();
            if let Some(at) = labels.get(random.below(labels.len().max(1))) {
                let count = octets[at + 1] as usize;
                let unused = 8 - count % 8;
                octets[at + 1 + count.div_ceil(8)] |= 1 << random.below(unused);
            }
        }
        // A count or length that does not fit its label.
        9 => {
            let at = (start + octets[start] as usize / 65).min(octets.len() - 1);
            octets[at] = octets[at].wrapping_add(random.pick(&[1, 255, 8, 248]));
        }
        // One octet changed, left out, or put in.
        10 => octets[somewhere] = random.octet(),
        11 => {
            octets.remove(somewhere);
        }
        _ => octets.insert(somewhere, random.octet()),
    }
}

/// A mixed set for benchmarks: of ten names four are host names, two reverse names in one bit label, two reverse
/// names in several, one is long, and one of any shape.
pub fn mixed(random: &mut Random, number: usize) -> Vec<Vec<u8>> {
    made(number, |name| {
        name.clear();
        match random.below(10) {
            0..=3 => {
                for _ in 0..random.between(2, 5) {
                    let length = random.between(2, 12);
                    name.some_label(random, length);
                }
                name.end();
            }
            4 | 5 => reverse(random, name, 1),
            6 | 7 => {
                let pieces = random.between(2, 6);
                reverse(random, name, pieces);
            }
            8 => {
                let total = random.between(150, 254);
                name.fill_to(random, total, 64, 1);
                name.end();
            }
            _ => good(random, name),
        }
    })
}

/// Names that merging changes.
pub fn merging(random: &mut Random, number: usize) -> Vec<Vec<u8>> {
    made(number, |name| {
        name.clear();
        if random.once_in(2) {
            let length = random.between(1, 12);
            name.some_label(random, length);
        }
        let pieces = random.between(2, 6);
        reverse(random, name, pieces);
    })
}

/// Ends a name with 128 bits in exactly `pieces` bit labels, then IP6.ARPA.
fn reverse(random: &mut Random, name: &mut Name, pieces: usize) {
    let mut left = 128;
    for after in (0..pieces).rev() {
        let count = if after == 0 { left } else { random.between(1, left - after) };
        name.some_bits(random, count);
        left -= count;
    }
    name.label(b"IP6");
    name.label(b"ARPA");
    name.end();
}

/// Names that are in standard form already.
pub fn standards(random: &mut Random, number: usize) -> Vec<Vec<u8>> {
    made(number, |name| standard(random, name))
}

fn made(number: usize, mut make: impl FnMut(&mut Name)) -> Vec<Vec<u8>> {
    let mut name = Name::new();
    let mut names = Vec::with_capacity(number);
    for _ in 0..number {
        make(&mut name);
        names.push(name.octets.clone());
    }
    names
}

/// Puts each letter in the ordinary labels of a name in either case (T-03). Octets that are no name are left as they are
/// from the first bad label on.
pub fn mix_case(random: &mut Random, octets: &mut [u8]) {
    let mut at = 0;
    while let Some(&first) = octets.get(at) {
        at += 1;
        let size = match first {
            1..=63 => first as usize,
            65 => {
                let count = octets.get(at).copied().unwrap_or(0) as usize;
                at += 1 + if count == 0 { 32 } else { count.div_ceil(8) };
                continue;
            }
            _ => return,
        };
        let Some(label) = octets.get_mut(at..at + size) else { return };
        let mut cases = random.number();
        for octet in label.iter_mut().filter(|octet| octet.is_ascii_alphabetic()) {
            *octet ^= (cases as u8 & 1) << 5;
            cases >>= 1;
        }
        at += size;
    }
}

/// A name with its letters in either case.
pub fn in_either_case(random: &mut Random, octets: &[u8]) -> Vec<u8> {
    let mut octets = octets.to_vec();
    mix_case(random, &mut octets);
    octets
}

/// Another spelling of a name in standard form: its letters in either case, its bit labels cut in two or three at any
/// places, as far as the name stays within 255 octets.
pub fn respelt(random: &mut Random, octets: &[u8]) -> Vec<u8> {
    let mut name = Name::new();
    let mut at = 0;
    while octets[at] != 0 {
        let label = &octets[at..];
        if label[0] != 65 {
            at += 1 + label[0] as usize;
            name.label(&label[1..1 + label[0] as usize]);
            continue;
        }
        let mut left = if label[1] == 0 { 256 } else { label[1] as usize };
        at += 2 + left.div_ceil(8);
        // The lowest bits come first in the name, and last in the label.
        for _ in 0..random.below(3) {
            let spare = 255 - (name.octets.len() + octets.len() - at + 2 + left.div_ceil(8));
            if left > 1 && spare >= 3 {
                let lower = random.between(1, left - 1);
                name.bits(lower, &moved(&label[2..], left - lower, lower));
                left -= lower;
            }
        }
        name.bits(left, &label[2..]);
    }
    name.end();
    mix_case(random, &mut name.octets);
    name.octets
}

/// `count` bits of a bit label from bit `from` on, left-justified.
pub fn moved(bits: &[u8], from: usize, count: usize) -> [u8; 32] {
    let mut octets = [0; 32];
    for bit in 0..count {
        let set = bits[(from + bit) / 8] >> (7 - (from + bit) % 8) & 1;
        octets[bit / 8] |= set << (7 - bit % 8);
    }
    octets
}
