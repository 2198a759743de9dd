//! The rows of the table: what is measured, and the bound that the design sets.

use super::measure::{Side, Work};
use super::stack::Deep;
use crate::generate::forward::{among, one_name, two_each, Tangle};
use crate::generate::names::{merging, mixed, standards, Name};
use crate::generate::plan::{a6_record, name, realistic, worst, MOST, RECORD};
use crate::generate::{a6, examples, lines, Random};
use crate::layout::Layout;
use crate::reference::a6::VALUE;
use crate::reference::plan::FIGURES;
use crate::text::grouped;
use crate::{ffi, reference};
use std::cell::RefCell;
use std::hint::black_box;
use std::rc::Rc;

pub struct Row {
    pub subject: String,
    pub bound: Option<f64>,
    pub kind: Kind,
}

pub enum Kind {
    /// Library against reference; the bound is on the library's time over the reference's.
    Work(Work),
    /// Of the rows with these subjects, the most over the least; the bound is on the library's.
    Spread([String; 3]),
    /// One row's time over another's; the bound is on the library's.
    Over([String; 2]),
    /// The stack of a deep call, in KiB; the bound is on the library's.
    Stack(Deep),
}

/// The bounds on the library's time over the reference's.
const CHAIN: Option<f64> = Some(1.5);
const DATA: Option<f64> = Some(1.5);
const CALL: Option<f64> = Some(2.0);
/// The same for the tables that are worst for the check.
const WORST: Option<f64> = Some(4.0);
/// The bound on the library's time for data of the 1998 draft over its time for A6 data.
const LAYOUT: Option<f64> = Some(1.2);
/// The bound on growth: the most over the least at 64, 256 and 1,024 records.
const GROWTH: Option<f64> = Some(1.2);
/// The bound on reading a plan of 1,024 lines, over the check of a table of 1,024 records: a millisecond on a machine
/// where that check takes 22 µs (docs/PERFORMANCE.md).
const MILLISECOND: Option<f64> = Some(45.0);
/// The design says that a lookup should cost little more than the check, and gives no number.
const LITTLE: Option<f64> = None;
/// The bound on the stack, in KiB.
const STACK: Option<f64> = Some(1024.0);

/// Records at which growth is measured.
const GROWING: [usize; 3] = [64, 256, MOST];
/// The limit of lookups: so many chains are met before they are refused.
const CHAINS: u32 = 1_000_000;
/// Addresses that lookups have room for.
const ROOM: usize = 128;
/// Names, data or values in a set.
const SET: usize = 1_000;

/// Kept to the end of the program.
fn keep<T>(value: T) -> &'static T {
    Box::leak(Box::new(value))
}

/// All rows, in the order of the table.
pub fn all() -> Vec<Row> {
    let mut rows = Rows(Vec::new());
    rows.chains();
    rows.checks();
    rows.calls();
    rows.respelt_calls();
    rows.growing_calls();
    rows.data();
    rows.lines();
    for records in GROWING {
        let subject = format!("stack of a lookup, a chain of {} records", grouped(records));
        rows.add(subject, STACK, Kind::Stack(Deep::Chain(records)));
    }
    rows.add("stack of a reverse lookup, 255 rewrites", STACK, Kind::Stack(Deep::Walk(255)));
    rows.names();
    rows.0
}

// Both sides of the exports.

type Standard = fn(&[u8], &mut [u8], &mut [u32]) -> u32;
type ReadLine = fn(&[u8], &mut [u8], &mut [u32]) -> u32;
type WriteLine = fn(&[u8], &mut [u8], &mut [u32]) -> u32;
type Check = fn(&[u8], &mut [u32]) -> u32;
type Owner = fn(&[u8], usize, &mut [u32]) -> u32;
type Lookup = fn(&[u8], &[u8], u32, &mut [u8], &mut [u32], &mut [u32]) -> u32;
type Reverse = fn(&[u8], &[u8], u8, &mut [u8], &mut [u32]) -> u32;
type Collapse = fn(&[u8], &[u8], &mut [u8], &mut [u32]) -> u32;

/// Both sides of an export, as `run` calls it with an output and figures of these lengths. The sides write to the same
/// memory, since it matters where that stands.
fn sides<F: Copy + 'static>(
    exports: [F; 2],
    [out, figures]: [usize; 2],
    run: impl Fn(F, &mut [u8], &mut [u32]) + Copy + 'static,
) -> [Side; 2] {
    let lent = Rc::new(RefCell::new((vec![0; out], vec![0; figures])));
    exports.map(|export| -> Side {
        let lent = lent.clone();
        Box::new(move || {
            let (out, figures) = &mut *lent.borrow_mut();
            run(export, out, figures);
        })
    })
}

fn standard(names: &'static [Vec<u8>]) -> [Side; 2] {
    let exports: [Standard; 2] = [ffi::standard, reference::names::standard];
    sides(exports, [255, 2], move |standard, out, figures| {
        for name in names {
            black_box(standard(black_box(name), out, figures));
        }
    })
}

fn read(layout: Layout, set: &'static [Vec<u8>]) -> [Side; 2] {
    sides(layout.readers(), [VALUE, 0], move |read, value, _| {
        for data in set {
            black_box(read(black_box(data), value));
        }
    })
}

fn write(layout: Layout, values: &'static [[u8; VALUE]]) -> [Side; 2] {
    sides(layout.writers(), [272, 2], move |write, out, figures| {
        for value in values {
            black_box(write(black_box(value), out, figures));
        }
    })
}

/// Lines that earn this number.
fn read_lines(lines: &'static [Vec<u8>], number: u32) -> [Side; 2] {
    let exports: [ReadLine; 2] = [ffi::read_line, reference::line::read_line];
    sides(exports, [RECORD, 2], move |read, out, figures| {
        for line in lines {
            assert_eq!(read(black_box(line), out, figures), number);
        }
    })
}

/// Records written as lines, with room for the longest.
fn write_lines(records: &'static [Vec<u8>]) -> [Side; 2] {
    let exports: [WriteLine; 2] = [ffi::write_line, reference::line::write_line];
    sides(exports, [lines::LINE, 2], move |write, out, figures| {
        for record in records {
            assert_eq!(write(black_box(record), out, figures), 0);
        }
    })
}

fn check(table: &'static [u8]) -> [Side; 2] {
    let exports: [Check; 2] = [ffi::check, reference::plan::check];
    sides(exports, [0, 2], move |check, _, figures| assert_eq!(check(black_box(table), figures), 0))
}

fn owner(table: &'static [u8], index: usize) -> [Side; 2] {
    let exports: [Owner; 2] = [ffi::owner, reference::plan::owner];
    sides(exports, [0, 2], move |owner, _, figures| assert_eq!(owner(black_box(table), black_box(index), figures), 0))
}

/// Lookups that give this number.
fn lookup(table: &'static [u8], names: &'static [Vec<u8>], limit: u32, number: u32) -> [Side; 2] {
    let exports: [Lookup; 2] = [ffi::lookup, reference::forward::lookup];
    let ttls = keep(RefCell::new([0; ROOM]));
    sides(exports, [16 * ROOM, FIGURES], move |lookup, out, figures| {
        for name in names {
            let ttls = &mut *ttls.borrow_mut();
            assert_eq!(lookup(black_box(table), black_box(name), limit, out, ttls, figures), number);
        }
    })
}

/// Walks of so many rewrites.
fn reverse(table: &'static [u8], addresses: &'static [[u8; 16]], rewrites: u32) -> [Side; 2] {
    let exports: [Reverse; 2] = [ffi::reverse, reference::reverse::lookup];
    sides(exports, [255, FIGURES], move |reverse, out, figures| {
        for address in addresses {
            assert_eq!(reverse(black_box(table), black_box(address), 255, out, figures), 0);
            assert_eq!(figures[1], rewrites);
        }
    })
}

/// Collapses that leave as many records as there are.
fn collapse(table: &'static [u8], names: &'static [Vec<u8>]) -> [Side; 2] {
    let exports: [Collapse; 2] = [ffi::collapse, reference::collapse::collapse];
    sides(exports, [table.len(), FIGURES], move |collapse, out, figures| {
        for name in names {
            assert_eq!(collapse(black_box(table), black_box(name), out, figures), 0);
            assert_eq!(figures[0] as usize, table.len() / RECORD);
        }
    })
}

// The rows.

/// The address whose walk RFC 2874, section 5.3, shows.
fn five_rewrites() -> &'static [[u8; 16]] {
    keep([examples::address("2345:c1:ca11:1:1234:5678:9abc:def0").to_be_bytes()])
}

/// Data as carriers send them: finished records, and sites and hosts with host names as their prefix names.
fn usual_data(random: &mut Random) -> Vec<u8> {
    let length = random.pick(&[0, 32, 48, 60, 64, 64, 64]);
    let mut data = vec![length];
    data.extend((0..16 - length / 8).map(|_| random.octet()));
    if length > 0 {
        data.extend(name(random.pick(&["IP6.SITE-12.EXAMPLE", "SUBNET-1.IP6.X.EXAMPLE", "p.a"])));
    }
    data
}

/// The check of the table that lookups are compared with.
const CHECK: &str = "check, full realistic table";

struct Rows(Vec<Row>);

impl Rows {
    fn add(&mut self, subject: impl Into<String>, bound: Option<f64>, kind: Kind) {
        self.0.push(Row { subject: subject.into(), bound, kind });
    }

    fn work(&mut self, subject: impl Into<String>, bound: Option<f64>, parts: usize, sides: [Side; 2]) {
        self.add(subject, bound, Kind::Work(Work { parts, sides, beside: None }));
    }

    /// One chain of a search that the limit ends, or that is done before. What a call does before its search, and a
    /// call with limit 0 does alone, is not counted.
    fn chain(&mut self, subject: impl Into<String>, graph: Tangle) {
        let Tangle { table, names } = keep(graph);
        let (mut out, mut ttls, mut figures) = ([0; 16 * ROOM], [0; ROOM], [0; FIGURES]);
        let number = reference::forward::lookup(table, &names[0], CHAINS, &mut out, &mut ttls, &mut figures);
        let parts = if number == 6 { CHAINS } else { figures[1] } as usize;
        let sides = lookup(table, &names[..1], CHAINS, number);
        let beside = Some(lookup(table, &names[..1], 0, 6));
        self.add(subject, CHAIN, Kind::Work(Work { parts, sides, beside }));
    }

    fn chains(&mut self) {
        let two = |records: usize| format!("one chain, two records a name, {} records", grouped(records));
        for records in [120, 64, 256, MOST] {
            self.chain(two(records), two_each(records));
        }
        let spread = Kind::Spread(GROWING.map(two));
        self.add("one chain, two records a name, most over least at 64, 256 and 1,024 records", GROWTH, spread);
        let those = |records: usize| format!("one chain, those 64 records among {}", grouped(records));
        for records in [256, MOST] {
            self.chain(those(records), among(&two_each(64), records));
        }
        let spread = Kind::Spread([two(64), those(256), those(MOST)]);
        self.add("one chain, those 64 records, most over least at 64, 256 and 1,024 records", GROWTH, spread);
        self.chain("one chain, 8 loops and 8 finished records of one name", one_name(8, 8));
        self.chain("one chain, 8 loops and 20 finished records, more addresses than room", one_name(8, 20));
        self.chain("one chain, 1,024 loops of one name", one_name(MOST, 0));
    }

    fn checks(&mut self) {
        self.work(CHECK, CALL, 1, check(&keep(realistic()).table));
        self.work("check, 1,024 DNAMEs, long labels", WORST, 1, check(keep(worst(63))));
        self.work("check, 1,024 DNAMEs, labels of one octet", WORST, 1, check(keep(worst(1))));
        // A6 records alone, all alike: the layout part of the check.
        let record = |number: usize| {
            let owner = name(&format!("IP6.SITE-{number:04}.EXAMPLE"));
            a6_record(&owner, 48, number as u128, &name("IP6.CARRIER-7.NET"))
        };
        let table: &Vec<u8> = keep((0..MOST).flat_map(record).collect());
        let one_of = |records: usize| format!("check, one A6 record of {}", grouped(records));
        for records in GROWING {
            self.work(one_of(records), CALL, records, check(&table[..records * RECORD]));
        }
        let spread = Kind::Spread(GROWING.map(one_of));
        self.add("check, one A6 record, most over least at 64, 256 and 1,024 records", GROWTH, spread);
    }

    /// Calls in the full realistic table.
    fn calls(&mut self) {
        let plan = keep(realistic());
        let of_host = "lookup of a host, full realistic table";
        self.work(of_host, CALL, 40, lookup(&plan.table, &plan.hosts[..40], CHAINS, 0));
        self.add("lookup of a host, over the check of the table", LITTLE, Kind::Over([of_host.into(), CHECK.into()]));
        let sites = lookup(&plan.table, &plan.sites[..40], CHAINS, 0);
        self.work("lookup of a site, full realistic table", CALL, 40, sites);
        let walks = reverse(&plan.table, &plan.addresses, 3);
        self.work("reverse, three rewrites, full realistic table", CALL, plan.addresses.len(), walks);
        // The DNAMEs of RFC 2874, section 5.2, in the place of as many records of sites.
        let dnames = examples::section_5_2().concat();
        let table: &Vec<u8> = keep([&plan.table[..plan.table.len() - dnames.len()], &dnames].concat());
        self.work("reverse, five rewrites, full realistic table", CALL, 1, reverse(table, five_rewrites(), 5));
        let carriers = collapse(&plan.table, &plan.carriers);
        self.work("collapse of a carrier, full realistic table", CALL, plan.carriers.len(), carriers);
    }

    /// Calls in the same table with every second name respelt, so that most names that are compared differ in case.
    fn respelt_calls(&mut self) {
        let plan = keep(realistic().respelt());
        let table = "respelt realistic table";
        self.work(format!("check, {table}"), CALL, 1, check(&plan.table));
        let hosts = lookup(&plan.table, &plan.hosts[..40], CHAINS, 0);
        self.work(format!("lookup of a host, {table}"), CALL, 40, hosts);
        let sites = lookup(&plan.table, &plan.sites[..40], CHAINS, 0);
        self.work(format!("lookup of a site, {table}"), CALL, 40, sites);
        let walks = reverse(&plan.table, &plan.addresses, 3);
        self.work(format!("reverse, three rewrites, {table}"), CALL, plan.addresses.len(), walks);
        let carriers = collapse(&plan.table, &plan.carriers);
        self.work(format!("collapse of a carrier, {table}"), CALL, plan.carriers.len(), carriers);
    }

    /// The same calls among more and more records.
    fn growing_calls(&mut self) {
        let host = Tangle { table: examples::host(), names: vec![name("h.a")] };
        let dnames = Tangle { table: examples::section_5_2().concat(), names: vec![] };
        let hosts = GROWING.map(|records| keep(among(&host, records)));
        for (records, Tangle { table, names }) in GROWING.map(grouped).iter().zip(hosts) {
            self.work(format!("lookup of h.a among {records} records"), CALL, 1, lookup(table, names, CHAINS, 0));
        }
        for records in GROWING {
            let subject = format!("reverse, five rewrites among {} records", grouped(records));
            let table = &keep(among(&dnames, records)).table;
            self.work(subject, CALL, 1, reverse(table, five_rewrites(), 5));
        }
        for (records, Tangle { table, names }) in GROWING.map(grouped).iter().zip(hosts) {
            self.work(format!("collapse of h.a among {records} records"), CALL, 1, collapse(table, names));
        }
    }

    fn data(&mut self) {
        let mut random = Random::new(2);
        let mut made = Name::new();
        let usual = (0..SET).map(|_| usual_data(&mut random)).collect();
        let mut mixed = vec![Vec::new(); SET];
        for data in &mut mixed {
            a6::good_data(&mut random, Layout::A6, &mut made, data);
        }
        for (kind, set) in [("usual", usual), ("mixed", mixed)] {
            // The same values in both layouts, and the same spelling of their names.
            let relaid: Vec<Vec<u8>> = set.iter().map(|data| a6::relaid(data, 0)).collect();
            let mut values = vec![[0; VALUE]; SET];
            for (data, value) in set.iter().zip(&mut values) {
                assert_eq!(reference::a6::read(data, value), 0);
            }
            let values = keep(values);
            let subject = |layout: Layout, verb: &str, of: &str| format!("{layout} {verb}, {kind} {of}");
            for (layout, set) in [(Layout::A6, keep(set)), (Layout::Draft, keep(relaid))] {
                self.work(subject(layout, "read", "data"), DATA, SET, read(layout, set));
                self.work(subject(layout, "write", "values"), DATA, SET, write(layout, values));
            }
            for (verb, of) in [("read", "data"), ("write", "values")] {
                let over = [Layout::Draft, Layout::A6].map(|layout| subject(layout, verb, of));
                self.add(format!("{}, over A6 {verb}", over[0]), LAYOUT, Kind::Over(over));
            }
        }
    }

    /// Lines of a plan, lines of every shape, and lines that are made to be slow, by the octet.
    fn lines(&mut self) {
        let (records, plan) = keep(lines::of_plan(&realistic().table));
        let mut random = Random::new(3);
        let mut made = Name::new();
        let mut line = Vec::new();
        let mut mixed = || (lines::good(&mut random, &mut made, &mut line).to_vec(), line.clone());
        let (mixed_records, mixed_lines) = keep((0..SET).map(|_| mixed()).unzip::<_, _, Vec<_>, Vec<_>>());
        self.work("line read, lines of a plan", DATA, MOST, read_lines(plan, 0));
        self.work("line write, records of a plan", DATA, MOST, write_lines(records));
        self.work("line read, mixed lines", DATA, SET, read_lines(mixed_lines, 0));
        self.work("line write, mixed records", DATA, SET, write_lines(mixed_records));
        let whole = "a plan of 1,024 lines read";
        self.work(whole, DATA, 1, read_lines(plan, 0));
        let over = Kind::Over([whole.into(), CHECK.into()]);
        self.add(format!("{whole}, over the check of a full table"), MILLISECOND, over);
        let octet = |kind: &str| format!("one octet of a line read, {kind}");
        let usual = octet("lines of a plan");
        self.work(usual.clone(), None, plan.iter().map(Vec::len).sum(), read_lines(plan, 0));
        for (kind, line, number) in lines::crafted() {
            let subject = octet(kind);
            self.work(subject.clone(), None, line.len(), read_lines(keep([line]), number));
            self.add(format!("{subject}, over that of a plan"), None, Kind::Over([subject, usual.clone()]));
        }
    }

    /// What the design sets no bound for.
    fn names(&mut self) {
        let mut random = Random::new(1);
        let sets = [
            ("names of every kind", mixed(&mut random, SET)),
            ("names that merge", merging(&mut random, SET)),
            ("names already standard", standards(&mut random, SET)),
        ];
        for (kind, set) in sets {
            self.work(format!("standard form, {kind}"), None, SET, standard(keep(set)));
        }
        self.work("owner, full realistic table", None, 1, owner(&keep(realistic()).table, 500));
    }
}
