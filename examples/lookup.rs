//! Looks up a name in a plan: standard input is the name's slot of 256 octets and then the plan's records.
use std::{io::Read, net::Ipv6Addr, process::exit};

#[link(name = "a6plan", kind = "static")]
extern "C" {
    fn a6plan_lookup(table: *const u8, table_length: usize, name: *const u8, name_length: usize, limit: u32,
        out: *mut u8, out_length: usize, ttls: *mut u32, ttls_length: usize,
        figures: *mut u32, figures_length: usize) -> u32;
}

const REFUSALS: [&str; 8] = [
    "",
    "the table is no whole number of records of 536 octets, or has more than 1,024",
    "not as it must be",
    "an earlier DNAME has the same (the case of letters does not count)",
    "the name is malformed, or cut short: its slot has 256 octets",
    "the output, the TTLs or the figures have another length than is asked",
    "the name has more chains than the limit, 10,000",
    "the name has more addresses than there is room for, 64",
];

const FIELDS: [&str; 7] = ["type", "prefix length", "zero octet", "address", "owner", "target", "TTL"];

/// 2 and 3 have a place in the table: the index of a record, from 0, and one of its fields.
fn refused(number: u32, index: u32, field: u32) -> ! {
    let place = match number {
        2 | 3 => format!("record {index} (from 0), {}: ", FIELDS[field as usize]),
        _ => String::new(),
    };
    eprintln!("refused {number}: {place}{}", REFUSALS[number as usize]);
    exit(number as i32)
}

fn main() {
    let (mut input, mut out, mut ttls, mut figures) = (Vec::new(), [0; 64 * 16], [0; 64], [0; 4]);
    // One octet more than a full table: a longer one is seen to be longer, and refused.
    let most = 256 + 1024 * 536 + 1;
    std::io::stdin().take(most).read_to_end(&mut input).expect("standard input is read");
    let Some((slot, plan)) = input.split_at_checked(256) else { refused(4, 0, 0) };
    let name = &slot[1..][..slot[0] as usize];
    // Each pointer goes with the length of its slice.
    let number = unsafe { a6plan_lookup(plan.as_ptr(), plan.len(), name.as_ptr(), name.len(), 10_000,
        out.as_mut_ptr(), out.len(), ttls.as_mut_ptr(), ttls.len(), figures.as_mut_ptr(), figures.len()) };
    if number != 0 {
        refused(number, figures[2], figures[3]);
    }
    for (address, ttl) in out.as_chunks::<16>().0.iter().zip(ttls).take(figures[0] as usize) {
        println!("{} {ttl}", Ipv6Addr::from(*address));
    }
}
