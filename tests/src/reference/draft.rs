//! Data of the 1998 draft (T-02): the reader and the writer. Values are those of A6 data.

use super::a6::{read_name, write_as, LENGTH, LONGEST, VALUE};

/// Octets of the address.
const ADDRESS: usize = 16;

/// The answer of `a6plan_read_1998`: 5 for a value not of 273 octets, then what is wrong with the data from left to
/// right, then 0 with the value.
#[inline(never)]
pub fn read(data: &[u8], value: &mut [u8]) -> u32 {
    value.fill(0);
    if value.len() != VALUE {
        return 5;
    }
    let Some((address, rest)) = data.split_first_chunk::<ADDRESS>() else { return 11 };
    let Some((&length, name)) = rest.split_first() else { return 11 };
    if length > LONGEST {
        return 10;
    }
    let number = read_name(length, name, value);
    if number != 0 {
        return number;
    }
    value[0] = length;
    let kept = u128::MAX.checked_shr(length as u32).unwrap_or(0);
    value[1..LENGTH].copy_from_slice(&(u128::from_be_bytes(*address) & kept).to_be_bytes());
    0
}

/// The answer of `a6plan_write_1998`: before the name stand the address and the prefix length.
#[inline(never)]
pub fn write(value: &[u8], out: &mut [u8], figures: &mut [u32]) -> u32 {
    write_as(
        value,
        out,
        figures,
        |_| ADDRESS + 1,
        |value, out| {
            out[..ADDRESS].copy_from_slice(&value[1..LENGTH]);
            out[ADDRESS] = value[0];
        },
    )
}
