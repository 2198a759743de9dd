//! Random calls of all exported functions, with good and damaged input, each compared with the reference.
//!
//! Inputs stand alone in memory of their own size, so that a tool which watches memory sees an octet read beyond them;
//! outputs have guards on both sides.

use crate::generate::forward::{self, Tangle};
use crate::generate::names::{self, Name};
use crate::generate::reverse::{self, Walk};
use crate::generate::{a6, lines, plan, Random};
use crate::layout::Layout;
use crate::lent::Sides;
use crate::met::Met;
use crate::reference::plan::FIGURES;
use crate::{ffi, reference};

/// The exported functions, in the order of their numbers here; those that take lines stand apart.
pub const FUNCTIONS: [&str; 10] =
    ["standard", "read", "write", "read_1998", "write_1998", "check", "owner", "lookup", "reverse", "collapse"];
pub const LINE_FUNCTIONS: [&str; 2] = ["write_line", "read_line"];

/// Makes `calls` calls and compares each with the reference: the number, every octet of the outputs and the figures;
/// guards and inputs are as they were. Gives how often each function gave each number.
pub fn soak(seed: u64, calls: usize) -> [Met; FUNCTIONS.len()] {
    run(seed, calls, FUNCTIONS)
}

/// The same over the functions that take lines.
pub fn soak_lines(seed: u64, calls: usize) -> [Met; LINE_FUNCTIONS.len()] {
    run(seed, calls, LINE_FUNCTIONS)
}

fn run<const N: usize>(seed: u64, calls: usize, functions: [&'static str; N]) -> [Met; N] {
    let mut soak = Soak::new(seed, functions);
    let mut made = 0;
    while made < calls {
        soak.refresh();
        for _ in 0..12.min(calls - made) {
            soak.call();
            made += 1;
        }
    }
    soak.met
}

struct Soak<const N: usize> {
    functions: [&'static str; N],
    random: Random,
    made: Name,
    tangle: Tangle,
    walk: Walk,
    /// Tables and names in hand, for several calls.
    tables: Vec<Box<[u8]>>,
    names: Vec<Box<[u8]>>,
    sides: Sides,
    met: [Met; N],
}

/// The octets in memory of their own.
fn alone(octets: &[u8]) -> Box<[u8]> {
    octets.into()
}

impl<const N: usize> Soak<N> {
    fn new(seed: u64, functions: [&'static str; N]) -> Soak<N> {
        Soak {
            functions,
            random: Random::new(seed),
            made: Name::new(),
            tangle: Tangle::default(),
            walk: Walk::default(),
            tables: Vec::new(),
            names: Vec::new(),
            sides: Sides::new(64 * plan::RECORD),
            met: std::array::from_fn(|_| Met::default()),
        }
    }

    /// New tables and names: a small tangle, a plan in layers or a deep one, a walk, a table of any records, octets
    /// that mean nothing; some of them spoiled.
    fn refresh(&mut self) {
        let Soak { random, made, tangle, walk, tables, names, .. } = self;
        tables.clear();
        names.clear();
        match random.below(40) {
            0 => {
                let records = random.between(20, 200);
                forward::deep(random, records, tangle);
            }
            1..=20 => forward::tangle(random, made, 10, tangle),
            _ => forward::layers(random, made, 12, tangle),
        }
        names.extend(tangle.names.iter().map(|name| alone(&names::respelt(random, name))));
        for _ in 0..2 {
            names::any(random, made);
            names.push(alone(&made.octets));
        }
        plan::spoil(random, made, &mut tangle.table);
        reverse::walk(random, made, walk);
        plan::spoil(random, made, &mut walk.table);
        let mut any = Vec::new();
        if random.once_in(4) {
            any.extend((0..random.below(3_000)).map(|_| random.octet()));
        } else {
            plan::any_table(random, made, &mut any);
        }
        tables.extend([&tangle.table, &walk.table, &any].map(|table| alone(table)));
    }

    /// Lengths for an output: these, and now and then any.
    fn length(&mut self, usual: &[usize]) -> usize {
        if self.random.once_in(12) {
            self.random.below(2_000)
        } else {
            self.random.pick(usual)
        }
    }

    fn call(&mut self) {
        let place = self.random.below(N);
        let function = self.functions[place];
        // The table that suits the function, mostly.
        let usual = (function == "reverse") as usize;
        let table = if self.random.once_in(4) { self.random.below(self.tables.len()) } else { usual };
        let table = self.tables[table].clone();
        let name = self.names[self.random.below(self.names.len())].clone();
        let wanted = if ["lookup", "reverse", "collapse"].contains(&function) { FIGURES } else { 2 };
        let figures = if self.random.once_in(16) { self.random.below(7) } else { wanted };
        let number = match function {
            "standard" => self.standard(&name, figures),
            "read" => self.read(Layout::A6),
            "write" => self.write(Layout::A6, figures),
            "read_1998" => self.read(Layout::Draft),
            "write_1998" => self.write(Layout::Draft, figures),
            "check" => self.sides.check(&table, figures),
            "owner" => self.owner(&table, figures),
            "lookup" => self.lookup(&table, &name, figures),
            "reverse" => self.reverse(&table, figures),
            "collapse" => self.collapse(&table, &name, figures),
            "write_line" => self.write_line(figures),
            _ => self.read_line(figures),
        };
        assert!(self.tables.contains(&table), "{}: the table has changed", function);
        assert!(self.names.contains(&name), "{}: the name has changed", function);
        self.met[place].count(number);
    }

    fn standard(&mut self, name: &[u8], figures: usize) -> u32 {
        let out = self.length(&[255]);
        let library = |out: &mut [u8], figures: &mut [u32]| ffi::standard(name, out, figures);
        let reference = |out: &mut [u8], figures: &mut [u32]| reference::names::standard(name, out, figures);
        self.sides.number([out, figures], library, reference, || format!("standard form of {name:02x?}"))
    }

    fn read(&mut self, layout: Layout) -> u32 {
        let mut data = Vec::new();
        a6::any_data(&mut self.random, layout, &mut self.made, &mut data);
        let data = alone(&data);
        let value = self.length(&[reference::a6::VALUE]);
        let [library, reference] = layout.readers();
        let library = |value: &mut [u8], _: &mut [u32]| library(&data, value);
        let reference = |value: &mut [u8], _: &mut [u32]| reference(&data, value);
        self.sides.number([value, 0], library, reference, || format!("{layout} read of {data:02x?}"))
    }

    fn write(&mut self, layout: Layout, figures: usize) -> u32 {
        let mut value = [0; reference::a6::VALUE];
        a6::any_value(&mut self.random, &mut self.made, &mut value);
        let size = layout.size(&value);
        let out = self.length(&[size, size, size - 1, 272, 300]);
        let length = if self.random.once_in(16) { self.random.below(value.len()) } else { value.len() };
        let value = alone(&value[..length]);
        let [library, reference] = layout.writers();
        let library = |out: &mut [u8], figures: &mut [u32]| library(&value, out, figures);
        let reference = |out: &mut [u8], figures: &mut [u32]| reference(&value, out, figures);
        self.sides.number([out, figures], library, reference, || format!("{layout} write of {value:02x?}"))
    }

    fn owner(&mut self, table: &[u8], figures: usize) -> u32 {
        let records = table.len() / plan::RECORD;
        let index = if self.random.once_in(8) { self.random.number() as usize } else { self.random.below(records + 2) };
        self.sides.owner(table, index, figures)
    }

    fn lookup(&mut self, table: &[u8], name: &[u8], figures: usize) -> u32 {
        let out = self.length(&[0, 16, 32, 64, 1_024, 1_024, 1_024]);
        // The largest limit only where the work is small.
        let largest = if table.len() <= 5 * plan::RECORD { u32::MAX } else { 3_000 };
        let limit = self.random.pick(&[0, 1, 2, 5, 20, largest, largest]);
        let ttls = if self.random.once_in(16) { self.random.below(out / 16 + 3) } else { out / 16 };
        self.sides.lookup(table, name, limit, [out, ttls, figures])
    }

    fn reverse(&mut self, table: &[u8], figures: usize) -> u32 {
        let out = self.length(&[255]);
        let length = if self.random.once_in(16) { self.random.below(16) } else { 16 };
        let address = alone(&self.walk.address[..length]);
        let limit = self.random.pick(&[0, 1, 2, 3, 5, 10, 10, 255]);
        self.sides.reverse(table, &address, limit, [out, figures])
    }

    fn collapse(&mut self, table: &[u8], name: &[u8], figures: usize) -> u32 {
        let rooms = [0, 1, 3, 8, 16, 40, 64].map(|room| room * plan::RECORD);
        let out = self.length(&rooms);
        self.sides.collapse(table, name, [out, figures])
    }

    fn write_line(&mut self, figures: usize) -> u32 {
        let mut record = lines::record(&mut self.random, &mut self.made).to_vec();
        if self.random.once_in(4) {
            plan::damage_one(&mut self.random, &mut self.made, &mut record);
        }
        if self.random.once_in(16) {
            record.truncate(self.random.below(plan::RECORD));
        }
        let record = alone(&record);
        let out = self.length(&[lines::LINE, lines::LINE, 200, 50]);
        self.sides.write_line(&record, [out, figures])
    }

    fn read_line(&mut self, figures: usize) -> u32 {
        let mut line = Vec::new();
        lines::any(&mut self.random, &mut self.made, &mut line);
        let line = alone(&line);
        let out = self.length(&[plan::RECORD, plan::RECORD, plan::RECORD, plan::RECORD + 40, plan::RECORD - 1]);
        self.sides.read_line(&line, [out, figures])
    }
}
