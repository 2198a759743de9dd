//! Data of the 1998 draft (T-02) bit by bit. They hold the values of A6 data.

use super::a6::{bits, name, octets, read_name, Value};
use super::demand;

/// Reads left to right. The first bits of the address, as many as the prefix length says, are read as zeros.
pub fn read(data: &[u8]) -> Result<Value, u32> {
    demand(11, data.len() >= 17)?;
    let length = data[16];
    demand(10, length <= 128)?;
    let bits = bits(&data[..16]).into_iter().enumerate();
    let address = bits.map(|(number, bit)| bit && number >= length as usize).collect();
    Ok(Value { length, address, name: read_name(length, &data[17..])? })
}

/// The data of a value in standard form: the first bits zero, bit labels merged.
pub fn data(value: &Value) -> Vec<u8> {
    [octets(&value.address), vec![value.length], name(value)].concat()
}
