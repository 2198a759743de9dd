//! Addresses joined (01, Chains; T-05), bit by bit, and octet by octet as FORMATS draws it.

/// A bit of an address by its number, bit 0 the highest.
fn bit(address: &[u8], number: usize) -> u8 {
    address[number / 8] >> (7 - number % 8) & 1
}

/// Each bit below the position is that of the first address, each other one that of the second.
pub fn join(high: &[u8], low: &[u8], at: usize) -> Vec<u8> {
    let joined = |number| bit(if number < at { high } else { low }, number);
    (0..16).map(|octet| (0..8).fold(0, |sum, number| sum * 2 + joined(octet * 8 + number))).collect()
}

/// The picture, for a position from 0 to 128: whole octets, at most one mixed octet, whole octets.
pub fn drawn(high: &[u8], low: &[u8], at: usize) -> Vec<u8> {
    let (whole, bits) = (at / 8, at % 8);
    let mut octets = high[..whole].to_vec();
    if bits > 0 {
        let unit = 1 << (8 - bits);
        octets.push(high[whole] / unit * unit + low[whole] % unit);
    }
    octets.extend(&low[octets.len()..]);
    octets
}
