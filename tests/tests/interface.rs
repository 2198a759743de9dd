//! The C header declares what the crate `a6plan_c` exports, with the same types in the same order, and numbers the fields;
//! each export promises what the function of the crate `a6plan` does; and the archive asks for no more than it says.

use a6plan_tests::pages::source::functions_in;
use a6plan_tests::plain::plan::Field;
use a6plan_tests::tree::{repository, text_of};
use std::collections::{BTreeMap, BTreeSet};
use std::process::Command;

/// The types of each function's parameters, by its name.
type Functions = BTreeMap<String, Vec<String>>;

/// The functions of a file: their names follow `before`, and `types` gives the C types of one parameter.
fn functions(file: &str, before: &str, types: impl Fn(&str) -> Vec<String>) -> Functions {
    let text = text_of(file);
    let function = |text: &str| {
        let (name, rest) = text.split_once('(').expect("parameters");
        let (parameters, _) = rest.split_once(')').expect("the end of the parameters");
        let parameters = parameters.split(',').map(str::trim).filter(|parameter| !parameter.is_empty());
        (name.to_string(), parameters.flat_map(&types).collect())
    };
    text.split(before).skip(1).map(function).collect()
}

/// The type of a parameter in C: all before its name.
fn declared(parameter: &str) -> Vec<String> {
    vec![parameter.trim_end_matches(|letter: char| letter.is_alphanumeric() || letter == '_').trim().to_string()]
}

/// The types in C of a parameter in Rattle: a slice is a pointer and a length.
fn exported(parameter: &str) -> Vec<String> {
    let (_, kind) = parameter.split_once(": ").expect("a type");
    let types: &[&str] = match kind {
        "&[u8]" => &["const uint8_t *", "size_t"],
        "&mut [u8]" => &["uint8_t *", "size_t"],
        "&mut [u32]" => &["uint32_t *", "size_t"],
        "usize" => &["size_t"],
        "u32" => &["uint32_t"],
        "u8" => &["uint8_t"],
        _ => panic!("a type that the interface does not have: {kind}"),
    };
    types.iter().map(|kind| kind.to_string()).collect()
}

/// The file of the exports, and what stands before the name of one.
const EXPORTS: (&str, &str) = ("crates/a6plan_c/src/lib.rt", "\npub extern \"C\" fn ");

#[test]
fn the_header_declares_what_is_exported() {
    let exported = functions(EXPORTS.0, EXPORTS.1, exported);
    assert_eq!(functions("include/a6plan.h", "\nuint32_t ", declared), exported);
    assert!(exported.len() >= 10 && exported.keys().all(|name| name.starts_with("a6plan_")), "{exported:?}");
}

/// An export has the name, the parameters and the clauses of a public function of `a6plan`, word for word, and there is one
/// for each.
#[test]
fn an_export_promises_what_the_library_does() {
    let library = "crates/a6plan/src/lib.rt";
    let whole = |parameter: &str| vec![parameter.to_string()];
    assert_eq!(functions(EXPORTS.0, EXPORTS.1, whole), functions(library, "\npub fn ", whole));
    let promises = |file: &str| -> BTreeMap<String, String> {
        functions_in("", &text_of(file)).into_iter().map(|function| (function.name, function.contract)).collect()
    };
    assert_eq!(promises(EXPORTS.0), promises(library));
    assert!(promises(library).values().all(|contract| !contract.is_empty()));
}

/// The archive asks for two names alone, which the compiler puts in: it can be linked where there is no other C library.
#[test]
fn the_archive_asks_for_two_names() {
    let mut nm = Command::new("nm");
    let output = nm.args(["-u", "target/staticlib/liba6plan.a"]).current_dir(repository()).output().expect("nm runs");
    assert!(output.status.success(), "nm reads the archive");
    let text = String::from_utf8(output.stdout).expect("text");
    let asked: BTreeSet<&str> = text.lines().filter_map(|line| line.trim().strip_prefix("U ")).collect();
    assert_eq!(asked, BTreeSet::from(["memcpy", "memset"]));
}

#[test]
fn the_header_numbers_the_fields() {
    let header = text_of("include/a6plan.h");
    for field in Field::ALL {
        let name = format!("{field:?}").to_uppercase();
        assert!(header.contains(&format!("#define A6PLAN_FIELD_{name} {}\n", field as u32)), "{field:?}");
    }
}
