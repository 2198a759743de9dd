//! The program `lookup` against the reference (01, Program lookup; T-04).

use a6plan_tests::generate::examples;
use a6plan_tests::generate::forward::{self as make, Tangle};
use a6plan_tests::generate::names::{self, Name};
use a6plan_tests::generate::plan::{self, break_field, breakable, dname_record, name};
use a6plan_tests::generate::Random;
use a6plan_tests::programs::{built, written};
use a6plan_tests::reference::forward as reference;
use a6plan_tests::reference::plan::{FIGURES, RECORD};
use a6plan_tests::tree::{repository, text_of};
use std::fs;
use std::path::{Path, PathBuf};
use std::process::Command;

/// Records that the program reads, its work limit and its room.
const RECORDS: usize = 120;
const LIMIT: u32 = 10_000;
const ROOM: usize = 64;

/// What the program prints for this input (01, Program lookup): after 2 and 3 also the index and the field (T-04).
fn printed(input: &[u8]) -> String {
    let refused = |number: u32| format!("refused {number}\n");
    let Some((slot, table)) = input.split_at_checked(256) else { return refused(4) };
    let (name, fill) = slot[1..].split_at(slot[0] as usize);
    if fill.iter().any(|octet| *octet != 0) {
        return refused(4);
    }
    if table.len() > RECORDS * RECORD {
        return refused(1);
    }
    let (mut out, mut ttls, mut figures) = ([0; 16 * ROOM], [0; ROOM], [0; FIGURES]);
    let number = reference::lookup(table, name, LIMIT, &mut out, &mut ttls, &mut figures);
    let [count, work, index, field] = figures;
    match number {
        0 => {}
        2 | 3 => return format!("refused {number} {index} {field}\n"),
        _ => return refused(number),
    }
    let mut text = String::new();
    for octets in out.chunks(16).take(count as usize) {
        text.extend(octets.iter().map(|octet| format!("{octet:02x}")));
        text.push('\n');
    }
    text + &format!("done {count} {work}\n")
}

/// Runs the program on this input and compares all that it prints.
fn run(program: &Path, input: &[u8]) -> String {
    let shown = String::from_utf8(written(program, input)).expect("its output is text");
    assert_eq!(shown, printed(input), "an input of {} octets", input.len());
    shown
}

fn slot(name: &[u8]) -> Vec<u8> {
    let mut slot = vec![name.len() as u8];
    slot.extend(name);
    slot.resize(256, 0);
    slot
}

fn program() -> Option<PathBuf> {
    built("lookup")
}

/// The reference and the program, where it is there, print this text for this input.
fn assert_prints(input: &[u8], text: &str) {
    assert_eq!(printed(input), text);
    if let Some(program) = program() {
        assert_eq!(run(&program, input), text);
    }
}

/// The input on which the gate runs the program, and README the examples in C and Rust.
#[test]
fn the_stored_input_is_01s_host_and_its_prefix() {
    let stored = fs::read(repository().join("crates/lookup/stdin")).expect("the stored input");
    assert!(stored == [slot(&name("h.a")), examples::host()].concat());
}

#[test]
fn the_program_prints_what_01_says() {
    let expected = [
        (examples::host(), "h.a", "20010db8000000050000000000000007\ndone 1 2\n"),
        (
            examples::loop_of_one(),
            "x.a",
            "20010db8000000000000000000000000\n20010db8000000000000000000000001\ndone 2 3\n",
        ),
        (examples::ignored(), "h.a", "20010db8000000000000000000000000\ndone 1 2\n"),
        (examples::host(), "H.a", "20010db8000000050000000000000007\ndone 1 2\n"),
        (vec![], "h.a", "done 0 0\n"),
        (make::one_name(8, 8).table, "one.name", "refused 6\n"),
        (make::one_name(1, 64).table, "one.name", "refused 7\n"),
        (make::one_name(0, 64).table[1..].to_vec(), "one.name", "refused 1\n"),
    ];
    for (table, name, text) in expected {
        assert_prints(&[slot(&plan::name(name)), table].concat(), text);
    }
}

/// The order of the program's own refusals: too short or badly filled, then too long, then lookup's.
#[test]
fn the_program_refuses_in_order() {
    let good = [slot(&name("h.a")), examples::host()].concat();
    let mut unfilled = good.clone();
    unfilled[255] = 1;
    let full = [slot(&name("x.a")), examples::loop_of_one().repeat(RECORDS / 2)].concat();
    let mut long_unfilled = [&full[..], &[0]].concat();
    long_unfilled[200] = 1;
    let mut lasting = good.clone();
    plan::put_ttl(&mut lasting[good.len() - RECORD..], plan::LONGEST + 1);
    let mut empty_name = [slot(&[]), examples::host()].concat();
    let malformed = [slot(&[3, b'a', 0]), examples::host()].concat();
    let mut inputs = vec![
        (vec![], "4"),
        (good[..255].to_vec(), "4"),
        (unfilled, "4"),
        (long_unfilled, "4"),
        ([&full[..], &[0]].concat(), "1"),
        (full.repeat(3), "1"),
        ([&good[..], &[0]].concat(), "1"),
        (lasting, "2 1 6"),
        (empty_name.clone(), "4"),
        (malformed, "4"),
        (full.clone(), "6"),
    ];
    // An empty or malformed name gives way to what is wrong with the table.
    empty_name[256 + 3] = 1;
    inputs.push((empty_name.clone(), "2 0 2"));
    empty_name.pop();
    inputs.push((empty_name, "1"));
    for (input, numbers) in inputs {
        assert_prints(&input, &format!("refused {numbers}\n"));
    }
}

/// Each field of the first record, of the last and of one between them; and two DNAMEs with the same owner.
#[test]
fn the_program_says_which_record_and_which_field() {
    let full = examples::loop_of_one().repeat(RECORDS / 2);
    let put = |table: &mut Vec<u8>, index: usize, record: &[u8]| {
        table[index * RECORD..(index + 1) * RECORD].copy_from_slice(record);
    };
    let dname = dname_record(&name("s.a"), &name("t.a"));
    for index in [0, 17, RECORDS - 1] {
        for good in [&full[..RECORD], &dname] {
            for field in breakable(good) {
                let mut bad = good.to_vec();
                break_field(&mut bad, field);
                let mut table = full.clone();
                put(&mut table, index, &bad);
                let text = format!("refused 2 {index} {}\n", field as u32);
                assert_prints(&[slot(&name("x.a")), table].concat(), &text);
            }
        }
    }
    for (first, second) in [(0, 1), (3, 17), (0, RECORDS - 1)] {
        let mut table = full.clone();
        put(&mut table, first, &dname);
        put(&mut table, second, &dname_record(&name("S.A"), &name("u")));
        assert_prints(&[slot(&name("x.a")), table].concat(), &format!("refused 3 {second} 4\n"));
    }
}

#[test]
fn readme_breaks_a_prefix_length() {
    let readme = text_of("README.md");
    let command = readme.lines().map(str::trim).find(|line| line.contains("printf '\\310'"));
    if program().is_some() {
        let mut shell = Command::new("sh");
        shell.args(["-c", command.expect("the command is there")]).current_dir(repository());
        assert_eq!(shell.output().expect("the command runs").stdout, b"refused 2 0 1\n");
    }
}

#[test]
fn the_program_agrees_on_generated_input() {
    let Some(program) = program() else { return };
    let mut random = Random::new(36);
    let (mut made, mut tangle) = (Name::new(), Tangle::default());
    let (mut done, mut refused) = (0, 0);
    for case in 0..500 {
        if case % 8 == 0 {
            make::deep(&mut random, RECORDS, &mut tangle);
        } else {
            make::tangle(&mut random, &mut made, 20, &mut tangle);
        }
        let Tangle { table, names } = &mut tangle;
        plan::spoil(&mut random, &mut made, table);
        let mut input = slot(&names[random.below(names.len())]);
        match random.below(16) {
            0 => {
                names::any(&mut random, &mut made);
                input = slot(&made.octets[..made.octets.len().min(255)]);
            }
            1 => input[random.below(256)] ^= 1 << random.below(8),
            2 => input[0] = input[0].wrapping_add(random.pick(&[1, 255])),
            3..=6 => names::mix_case(&mut random, &mut input[1..]),
            _ => {}
        }
        input.extend_from_slice(table);
        if random.once_in(40) {
            input.truncate(random.below(300));
        }
        if random.once_in(40) {
            let full = 256 + RECORDS * RECORD;
            input.resize(random.pick(&[full, full + 1, full + RECORD, 2 * full]), 0);
        }
        let shown = run(&program, &input);
        done += shown.contains("done") as usize;
        refused += shown.starts_with("refused") as usize;
    }
    println!("the program: {done} done, {refused} refused");
    assert!(done > 150 && refused > 50 && done + refused == 500);
}
