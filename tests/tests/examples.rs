//! The examples and commands of README: its code is that of the files in examples/, which are compiled and run as it
//! says, and print what it says.

use a6plan_tests::generate::plan::{break_field, dname_record, name};
use a6plan_tests::plain::plan::Field;
use a6plan_tests::tree::{repository, text_of};
use std::fs;
use std::path::{Path, PathBuf};
use std::process::{Command, Output};

/// What a command that ends well prints.
fn printed(command: &mut Command) -> String {
    let Output { status, stdout, stderr } = command.current_dir(repository()).output().expect("the command runs");
    assert!(status.success(), "{command:?}: {status}\n{}", String::from_utf8_lossy(&stderr));
    String::from_utf8(stdout).expect("text")
}

/// What the program prints that README builds with one command and runs with the next; they are run as they stand.
fn printed_as_readme_says(program: &str) -> String {
    let readme = text_of("README.md");
    let commands = readme.lines().filter(|line| line.starts_with("    ") && line.contains(program));
    let [build, run] = commands.map(str::trim).collect::<Vec<_>>()[..] else {
        panic!("README builds and runs {program}")
    };
    printed(Command::new("sh").args(["-c", build]));
    printed(Command::new("sh").args(["-c", run]))
}

/// The example in this language is whole in README.
fn assert_shown(language: &str, example: &str) {
    let block = format!("```{language}\n{}```\n", text_of(example));
    assert!(text_of("README.md").contains(&block), "README shows {example} as it is");
}

/// A C example, compiled with every warning as an error.
fn compiled(example: &str) -> PathBuf {
    let program = Path::new(env!("CARGO_TARGET_TMPDIR")).join(example);
    let mut gcc = Command::new("gcc");
    gcc.args(["-std=c11", "-O2", "-Wall", "-Wextra", "-pedantic", "-Werror", "-Iinclude"]);
    gcc.arg(format!("examples/{example}.c")).arg("target/staticlib/liba6plan.a").arg("-o").arg(&program);
    printed(&mut gcc);
    program
}

/// What both lookups print: the address and its TTL.
const LOOKUP: &str = "2001:db8:0:5::7 300\n";

/// Where the input of a program that README builds is written.
fn input_of(program: &str) -> PathBuf {
    Path::new(env!("CARGO_TARGET_TMPDIR")).join(program.replace('/', "-"))
}

/// What a program that README builds makes of this input, for a lookup a slot and records: its exit status, and what it
/// prints and says.
fn looked_up(program: &str, slot: &[u8], records: &[u8]) -> (Option<i32>, String, String) {
    let file = input_of(program);
    fs::write(&file, [slot, records].concat()).expect("the input is written");
    let input = fs::File::open(&file).expect("the input");
    let output = Command::new(repository().join(program)).stdin(input).output().expect("the program runs");
    let text = |octets| String::from_utf8(octets).expect("text");
    (output.status.code(), text(output.stdout), text(output.stderr))
}

/// A lookup takes 1,024 records and no more, and refuses in words, with the record and the field after 2 and 3.
fn assert_whole(program: &str) {
    let sample = fs::read(repository().join("crates/lookup/stdin")).expect("the sample plan");
    let (slot, records) = sample.split_at(256);
    // The host's record, and the carrier's again and again.
    let (host, carrier) = records.split_at(536);
    let table: Vec<u8> = host.iter().chain(carrier.iter().cycle().take(1_025 * 536)).copied().collect();
    let refused = |number, words: &str| (Some(number), String::new(), format!("refused {number}: {words}\n"));
    assert_eq!(looked_up(program, slot, &table[..1_024 * 536]), (Some(0), LOOKUP.into(), String::new()));
    for octets in [1_024 * 536 + 1, 1_025 * 536, 1_026 * 536, 1_024 * 536 - 1] {
        let words = "the table is no whole number of records of 536 octets, or has more than 1,024";
        assert_eq!(looked_up(program, slot, &table[..octets]), refused(1, words), "{octets} octets");
    }
    let words = "the name is malformed, or cut short: its slot has 256 octets";
    assert_eq!(looked_up(program, &slot[1..], &[]), refused(4, words));
    // Each field of the host's record, among carriers.
    for (field, named) in
        Field::ALL.into_iter().zip(["type", "prefix length", "zero octet", "address", "owner", "target", "TTL"])
    {
        let mut bad = host.to_vec();
        break_field(&mut bad, field);
        for index in [0, 17] {
            let table = [carrier.repeat(index), bad.clone(), carrier.to_vec()].concat();
            let words = format!("record {index} (from 0), {named}: not as it must be");
            assert_eq!(looked_up(program, slot, &table), refused(2, &words));
        }
    }
    let dname = dname_record(&name("s.a"), &name("t.a"));
    let again = dname_record(&name("S.A"), &name("u"));
    let words = "record 2 (from 0), owner: an earlier DNAME has the same (the case of letters does not count)";
    assert_eq!(looked_up(program, slot, &[&dname[..], host, &again].concat()), refused(3, words));
}

/// Input that cannot be read, and output that cannot be written for this input, are told apart from refusals.
fn assert_fails_plainly(program: &str, sample: &Path) {
    let open = |path: &Path| fs::OpenOptions::new().read(true).open(path).expect("it is opened");
    let full = || fs::OpenOptions::new().write(true).open("/dev/full").expect("it is opened");
    let read = Command::new(repository().join(program)).stdin(open(&repository())).output().expect("the program runs");
    let write = Command::new(repository().join(program)).stdin(open(sample)).stdout(full()).output();
    for output in [read, write.expect("the program runs")] {
        assert_eq!(output.status.code(), Some(101));
        assert!(!output.stderr.is_empty(), "{program} says what failed");
    }
}

#[test]
fn a_lookup_from_c() {
    assert_shown("c", "examples/lookup.c");
    compiled("lookup");
    assert_eq!(printed_as_readme_says("target/lookup-c"), LOOKUP);
    assert_whole("target/lookup-c");
    assert_fails_plainly("target/lookup-c", &repository().join("crates/lookup/stdin"));
}

#[test]
fn a_lookup_from_rust() {
    assert_shown("rust", "examples/lookup.rs");
    assert_eq!(printed_as_readme_says("target/lookup-rs"), LOOKUP);
    assert_whole("target/lookup-rs");
    assert_fails_plainly("target/lookup-rs", &repository().join("crates/lookup/stdin"));
}

#[test]
fn the_standard_form_from_c() {
    let form = "41803ffe07c0004000090a0020fffe812b3203495036044152504100\n";
    assert_eq!(printed(&mut Command::new(compiled("standard"))), form);
}

/// The conversion that README builds gives what it says, refuses in words, and tells failures apart from refusals.
#[test]
fn the_1998_layout_from_c() {
    compiled("convert");
    assert_eq!(printed_as_readme_says("target/convert-c"), " 40 00 00 00 00 00 00 00 07 01 70 01 61 00\n");
    let converted = |data: &[u8]| looked_up("target/convert-c", data, &[]);
    let refused =
        |number, words: &str| (Some(number), String::new(), format!("refused {number}: {words} octets read)\n"));
    let with = |rest: &[u8]| [&[0xff; 16], rest].concat();
    assert_eq!(converted(&with(&[])), refused(11, "the data ends too soon (16"));
    assert_eq!(converted(&with(&[200])), refused(10, "the prefix length, the seventeenth octet, is over 128 (17"));
    assert_eq!(converted(&with(&[64, 0xc0, 12])), refused(12, "the prefix name is malformed, or compressed (19"));
    assert_eq!(converted(&with(&[0, 0])), refused(13, "octets are left over (18"));
    // A name that goes on and on is malformed, however much of it there is.
    assert_eq!(
        converted(&with(&[&[64], &[63; 6_400][..]].concat())),
        refused(12, "the prefix name is malformed, or compressed (512")
    );
    assert_eq!(converted(&with(&[&[64, 0], &[0; 6_400][..]].concat())), refused(13, "octets are left over (512"));
    assert_eq!(converted(&with(&[121, 0])), (Some(0), "y\x7f\0".into(), String::new()));
    assert_fails_plainly("target/convert-c", &input_of("target/convert-c"));
}

/// What README says of the program `lookup` is what the gate holds it to.
#[test]
fn readme_shows_what_the_program_prints() {
    let shown: String = text_of("crates/lookup/stdout").lines().map(|line| format!("    {line}\n")).collect();
    assert!(text_of("README.md").contains(&shown));
}
