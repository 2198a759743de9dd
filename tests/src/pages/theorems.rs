//! The theorems: the demands, and the laws of other crates that are marked as such.

use super::functions::promised;
use super::source::{head_of, items, words, Item};
use super::{cell, table, top};
use crate::tree::{crates, names_in, text_of};

/// How the comment of a law begins that is a theorem.
const MARK: &str = "Theorem: ";

/// The files of the demands.
pub fn demands() -> Vec<String> {
    let folder = "crates/demands/proofs";
    names_in(folder, ".antt")
        .into_iter()
        .filter(|name| name != "Lib")
        .map(|name| format!("{folder}/{name}.antt"))
        .collect()
}

/// Whether an item of a file states something: it is no type and no short name, and nothing in the file is stated by it.
pub fn is_theorem(item: &Item, items: &[Item]) -> bool {
    let stated = |other: &Item| other.name != item.name && words(&other.statement).contains(item.name.as_str());
    !item.is_definition && !items.iter().any(stated)
}

/// The public theorems of a file of demands, each with what it says: its comment, or that a function's contract is its
/// definition, or its heading, or what the file says of itself.
fn rows(file: &str) -> Vec<Vec<String>> {
    let text = text_of(file);
    let items = items(&text);
    let says = |item: &Item| {
        let promise = promised(&text, item).map(|function| format!("the contract of `{function}` is its definition"));
        let mut texts = [Some(item.comment.clone()), promise, Some(item.heading.clone())].into_iter().flatten();
        texts.find(|text| !text.is_empty()).unwrap_or_else(|| head_of(&text))
    };
    let theorems = items.iter().filter(|item| item.public && is_theorem(item, &items));
    theorems.map(|item| vec![format!("`{}`", item.name), cell(&says(item))]).collect()
}

/// The marked laws of a crate: name, file and what it says.
fn laws(of: &str) -> Vec<Vec<String>> {
    let folder = format!("crates/{of}/proofs");
    let mut rows = Vec::new();
    for name in names_in(&folder, ".antt") {
        for item in items(&text_of(&format!("{folder}/{name}.antt"))) {
            if let Some(says) = item.comment.strip_prefix(MARK) {
                rows.push(vec![format!("`{}`", item.name), format!("`{folder}/{name}.antt`"), cell(says)]);
            }
        }
    }
    rows
}

pub fn page() -> String {
    let mut page = top(
        "Theorems",
        "First the demands: every public theorem of the crate `demands`. Then the laws of the other crates that a reader may want: \
         those whose comment is marked as a theorem.",
    );
    for file in demands() {
        let rows = rows(&file);
        if !rows.is_empty() {
            page += &format!("\n## `{file}`\n\n{}\n\n", head_of(&text_of(&file)));
            page += &table(&["Theorem", "Says"], &rows);
        }
    }
    for name in crates() {
        let rows = laws(&name);
        if !rows.is_empty() {
            page += &format!("\n## {name}\n\n{}", table(&["Law", "File", "Says"], &rows));
        }
    }
    page
}
