//! The benchmark's table: it has a row for each figure that the design bounds. What the rows say is not judged here.

use std::process::Command;

#[test]
fn the_table_has_a_row_for_every_figure() {
    let run = Command::new(env!("CARGO_BIN_EXE_bench")).arg("1").output().expect("the benchmark runs");
    assert!(run.status.success(), "{}", String::from_utf8_lossy(&run.stderr));
    let table = String::from_utf8(run.stdout).expect("text");
    for line in table.lines() {
        assert_eq!(line.matches('|').count(), 7, "{line}");
    }
    for figure in [
        "one chain, two records a name, 120 records",
        "one chain, two records a name, 1,024 records",
        "one chain, two records a name, most over least at 64, 256 and 1,024 records",
        "one chain, 8 loops and 8 finished records of one name",
        "one chain, 8 loops and 20 finished records, more addresses than room",
        "one chain, 1,024 loops of one name",
        "check, full realistic table",
        "check, one A6 record, most over least at 64, 256 and 1,024 records",
        "lookup of a host, full realistic table",
        "lookup of a host, over the check of the table",
        "reverse, five rewrites, full realistic table",
        "collapse of a carrier, full realistic table",
        "check, respelt realistic table",
        "lookup of a host, respelt realistic table",
        "lookup of a site, respelt realistic table",
        "reverse, three rewrites, respelt realistic table",
        "collapse of a carrier, respelt realistic table",
        "A6 read, usual data",
        "A6 write, usual values",
        "1998 read, usual data",
        "1998 write, usual values",
        "1998 read, usual data, over A6 read",
        "1998 write, usual values, over A6 write",
        "1998 read, mixed data",
        "1998 write, mixed values",
        "1998 read, mixed data, over A6 read",
        "1998 write, mixed values, over A6 write",
        "line read, lines of a plan",
        "line write, records of a plan",
        "line read, mixed lines",
        "line write, mixed records",
        "a plan of 1,024 lines read",
        "a plan of 1,024 lines read, over the check of a full table",
        "one octet of a line read, blanks, over that of a plan",
        "one octet of a line read, labels of one bit, over that of a plan",
        "one octet of a line read, escapes, over that of a plan",
        "one octet of a line read, digits of a number, over that of a plan",
        "stack of a lookup, a chain of 1,024 records",
        "stack of a reverse lookup, 255 rewrites",
        "`rt ci` from nothing",
    ] {
        assert!(table.contains(&format!("\n| {figure} |")), "{figure}");
    }
}
