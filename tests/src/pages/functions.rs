//! The public functions, each with its line in demand 1.

use super::source::{imports, items, public_functions, words, Function, Item};
use super::{cell, code, table, top};
use crate::tree::{crates, text_of};

/// The file of demand 1.
const DEMAND: &str = "crates/demands/proofs/Demand1.antt";

/// The function whose contract an item of a file is about: `Promises (ALIAS.Asked ..`, with the alias of the function's
/// `Reads`.
pub fn promised(text: &str, item: &Item) -> Option<String> {
    let (_, rest) = item.statement.split_once("Promises (")?;
    let (alias, _) = rest.split_once(".Asked ")?;
    let import = imports(text).into_iter().find(|import| import.alias.as_deref() == Some(alias))?;
    let path = import.module.strip_suffix(".Reads")?.replace('.', "::");
    Some(format!("{}::{path}", import.of))
}

/// The theorem of demand 1 about each public function, by the function's path.
pub fn promises() -> Vec<(String, String)> {
    let text = text_of(DEMAND);
    let items = items(&text);
    items
        .iter()
        .filter(|item| item.public)
        .filter_map(|item| Some((promised(&text, item)?, item.name.clone())))
        .collect()
}

pub fn page() -> String {
    let promises = promises();
    let mut page = top(
        "Public functions",
        &format!(
            "Every public function outside a module `inside`, and the theorem of demand 1 (`{DEMAND}`) that says of it: it asks \
             nothing of its caller, and what a caller learns of a call is its definition, no less and no more."
        ),
    );
    for name in crates() {
        let rows: Vec<Vec<String>> = public_functions(&name)
            .iter()
            .map(|function| {
                let path = format!("{name}::{}", function.path("::"));
                let theorem = promises
                    .iter()
                    .find(|(of, _)| *of == path)
                    .map_or(String::new(), |(_, theorem)| format!("`{theorem}`"));
                vec![format!("`{path}`"), theorem, code(&defined(&name, function)), cell(&function.comment)]
            })
            .collect();
        if !rows.is_empty() {
            page += &format!("\n## {name}\n\n{}", table(&["Function", "Demand 1", "Defined by", "Answers"], &rows));
        }
    }
    page
}

/// The definitions that a function's contract names.
fn defined(of: &str, function: &Function) -> Vec<String> {
    let file = if function.module.is_empty() { "lib" } else { &function.module };
    let words = words(&function.contract);
    let imports = imports(&text_of(&format!("crates/{of}/src/{file}.rt")));
    let names = imports.iter().filter(|import| import.definitions().is_some()).flat_map(|import| &import.names);
    names.filter(|name| words.contains(name.as_str())).cloned().collect()
}
