//! The library's C interface with safe wrappers. A slice is a pointer and a length in elements.

extern "C" {
    fn a6plan_standard(
        name: *const u8,
        name_length: usize,
        out: *mut u8,
        out_length: usize,
        figures: *mut u32,
        figures_length: usize,
    ) -> u32;
    fn a6plan_read(data: *const u8, data_length: usize, value: *mut u8, value_length: usize) -> u32;
    fn a6plan_write(
        value: *const u8,
        value_length: usize,
        out: *mut u8,
        out_length: usize,
        figures: *mut u32,
        figures_length: usize,
    ) -> u32;
    fn a6plan_read_1998(data: *const u8, data_length: usize, value: *mut u8, value_length: usize) -> u32;
    fn a6plan_write_1998(
        value: *const u8,
        value_length: usize,
        out: *mut u8,
        out_length: usize,
        figures: *mut u32,
        figures_length: usize,
    ) -> u32;
    fn a6plan_check(table: *const u8, table_length: usize, figures: *mut u32, figures_length: usize) -> u32;
    fn a6plan_owner(
        table: *const u8,
        table_length: usize,
        index: usize,
        figures: *mut u32,
        figures_length: usize,
    ) -> u32;
    fn a6plan_lookup(
        table: *const u8,
        table_length: usize,
        name: *const u8,
        name_length: usize,
        limit: u32,
        out: *mut u8,
        out_length: usize,
        ttls: *mut u32,
        ttls_length: usize,
        figures: *mut u32,
        figures_length: usize,
    ) -> u32;
    fn a6plan_reverse(
        table: *const u8,
        table_length: usize,
        address: *const u8,
        address_length: usize,
        limit: u8,
        out: *mut u8,
        out_length: usize,
        figures: *mut u32,
        figures_length: usize,
    ) -> u32;
    fn a6plan_collapse(
        table: *const u8,
        table_length: usize,
        name: *const u8,
        name_length: usize,
        out: *mut u8,
        out_length: usize,
        figures: *mut u32,
        figures_length: usize,
    ) -> u32;
    fn a6plan_write_line(
        record: *const u8,
        record_length: usize,
        out: *mut u8,
        out_length: usize,
        figures: *mut u32,
        figures_length: usize,
    ) -> u32;
    fn a6plan_read_line(
        line: *const u8,
        line_length: usize,
        out: *mut u8,
        out_length: usize,
        figures: *mut u32,
        figures_length: usize,
    ) -> u32;
}

/// The standard form of `name` in `out`; figures: its length and 0.
pub fn standard(name: &[u8], out: &mut [u8], figures: &mut [u32]) -> u32 {
    // SAFETY: each pointer and length come from one live slice, and the written ones are lent mutably.
    unsafe {
        a6plan_standard(name.as_ptr(), name.len(), out.as_mut_ptr(), out.len(), figures.as_mut_ptr(), figures.len())
    }
}

/// The value that the A6 data holds.
pub fn read(data: &[u8], value: &mut [u8]) -> u32 {
    // SAFETY: each pointer and length come from one live slice, and the written one is lent mutably.
    unsafe { a6plan_read(data.as_ptr(), data.len(), value.as_mut_ptr(), value.len()) }
}

/// The A6 data of a value in `out`; figures: octets written and 0.
pub fn write(value: &[u8], out: &mut [u8], figures: &mut [u32]) -> u32 {
    // SAFETY: each pointer and length come from one live slice, and the written ones are lent mutably.
    unsafe {
        a6plan_write(value.as_ptr(), value.len(), out.as_mut_ptr(), out.len(), figures.as_mut_ptr(), figures.len())
    }
}

/// The value that data in the layout of the 1998 draft hold.
pub fn read_1998(data: &[u8], value: &mut [u8]) -> u32 {
    // SAFETY: each pointer and length come from one live slice, and the written one is lent mutably.
    unsafe { a6plan_read_1998(data.as_ptr(), data.len(), value.as_mut_ptr(), value.len()) }
}

/// The data of a value in `out`, in the layout of the 1998 draft; figures: octets written and 0.
pub fn write_1998(value: &[u8], out: &mut [u8], figures: &mut [u32]) -> u32 {
    // SAFETY: each pointer and length come from one live slice, and the written ones are lent mutably.
    unsafe {
        a6plan_write_1998(value.as_ptr(), value.len(), out.as_mut_ptr(), out.len(), figures.as_mut_ptr(), figures.len())
    }
}

/// 0 for a table in order, else 1, 2 or 3; figures: after 2 and 3 the index of the record at fault and its field.
pub fn check(table: &[u8], figures: &mut [u32]) -> u32 {
    // SAFETY: each pointer and length come from one live slice, and the written one is lent mutably.
    unsafe { a6plan_check(table.as_ptr(), table.len(), figures.as_mut_ptr(), figures.len()) }
}

/// Where the owner of record `index` stands in the table; figures: offset and length.
pub fn owner(table: &[u8], index: usize, figures: &mut [u32]) -> u32 {
    // SAFETY: each pointer and length come from one live slice, and the written one is lent mutably.
    unsafe { a6plan_owner(table.as_ptr(), table.len(), index, figures.as_mut_ptr(), figures.len()) }
}

/// The addresses of `name` in `out`, and the TTL of each in `ttls`, if the work is at most `limit`; figures: their count,
/// the work, and index and field as the check gives them.
pub fn lookup(table: &[u8], name: &[u8], limit: u32, out: &mut [u8], ttls: &mut [u32], figures: &mut [u32]) -> u32 {
    // SAFETY: each pointer and length come from one live slice, and the written ones are lent mutably.
    unsafe {
        a6plan_lookup(
            table.as_ptr(),
            table.len(),
            name.as_ptr(),
            name.len(),
            limit,
            out.as_mut_ptr(),
            out.len(),
            ttls.as_mut_ptr(),
            ttls.len(),
            figures.as_mut_ptr(),
            figures.len(),
        )
    }
}

/// The name that `address` leads to in `out`, by at most `limit` rewrites; figures: its length, the rewrites, and index and
/// field as the check gives them.
pub fn reverse(table: &[u8], address: &[u8], limit: u8, out: &mut [u8], figures: &mut [u32]) -> u32 {
    // SAFETY: each pointer and length come from one live slice, and the written ones are lent mutably.
    unsafe {
        a6plan_reverse(
            table.as_ptr(),
            table.len(),
            address.as_ptr(),
            address.len(),
            limit,
            out.as_mut_ptr(),
            out.len(),
            figures.as_mut_ptr(),
            figures.len(),
        )
    }
}

/// The table in which `name` is collapsed in `out`; figures: its records, 0, and index and field as the check gives them.
pub fn collapse(table: &[u8], name: &[u8], out: &mut [u8], figures: &mut [u32]) -> u32 {
    // SAFETY: each pointer and length come from one live slice, and the written ones are lent mutably.
    unsafe {
        a6plan_collapse(
            table.as_ptr(),
            table.len(),
            name.as_ptr(),
            name.len(),
            out.as_mut_ptr(),
            out.len(),
            figures.as_mut_ptr(),
            figures.len(),
        )
    }
}

/// The line of an A6 record in `out`; figures: its octets and 0.
pub fn write_line(record: &[u8], out: &mut [u8], figures: &mut [u32]) -> u32 {
    // SAFETY: each pointer and length come from one live slice, and the written ones are lent mutably.
    unsafe {
        a6plan_write_line(
            record.as_ptr(),
            record.len(),
            out.as_mut_ptr(),
            out.len(),
            figures.as_mut_ptr(),
            figures.len(),
        )
    }
}

/// The A6 record of a line in `out`; figures: 1 and 0.
pub fn read_line(line: &[u8], out: &mut [u8], figures: &mut [u32]) -> u32 {
    // SAFETY: each pointer and length come from one live slice, and the written ones are lent mutably.
    unsafe {
        a6plan_read_line(line.as_ptr(), line.len(), out.as_mut_ptr(), out.len(), figures.as_mut_ptr(), figures.len())
    }
}
