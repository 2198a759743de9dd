//! What has to be believed: the files of definitions that the promises of public functions and the demands are made of.

use super::source::{functions_in, head_of, imports, items, lines_of, public_files, words, Item};
use super::{cell, code, table, theorems, top};
use crate::text::grouped;
use crate::tree::{crates, names_in, text_of};
use std::collections::{BTreeMap, BTreeSet};

/// The files of definitions, crate by crate: all but `Lib`, the list of a folder's modules.
fn files() -> Vec<String> {
    let files = crates().into_iter().flat_map(|name| {
        let folder = format!("crates/{name}/specs");
        let modules = names_in(&folder, ".antt").into_iter().filter(|module| module != "Lib");
        modules.map(|module| format!("{folder}/{module}.antt")).collect::<Vec<_>>()
    });
    files.collect()
}

/// The files that a text's words come from.
fn named(imported: &str, words: &BTreeSet<&str>) -> Vec<String> {
    imports(imported).iter().filter(|import| import.brings(words)).filter_map(|import| import.definitions()).collect()
}

/// The files that the contracts of public functions name.
fn of_contracts() -> BTreeSet<String> {
    let mut files = BTreeSet::new();
    for name in crates() {
        for (module, file) in public_files(&name) {
            let text = text_of(&file);
            for function in functions_in(&module, &text) {
                files.extend(named(&text, &words(&function.contract)));
            }
        }
    }
    files
}

/// The files that the demands name: those of the crate `demands`, and what its theorems say by them.
fn of_demands() -> BTreeSet<String> {
    let own = files().into_iter().filter(|file| file.starts_with("crates/demands/"));
    let mut files: BTreeSet<String> = own.collect();
    for file in theorems::demands() {
        let text = text_of(&file);
        let items = items(&text);
        let (theorems, others): (Vec<&Item>, Vec<&Item>) =
            items.iter().partition(|item| theorems::is_theorem(item, &items));
        // What a theorem says, and what the definitions beside it say that it is made of.
        let mut said: String = theorems
            .iter()
            .filter(|item| item.public)
            .map(|item| item.statement.as_str())
            .collect::<Vec<_>>()
            .join("\n");
        let mut taken = BTreeSet::new();
        loop {
            let more =
                others.iter().find(|item| !taken.contains(&item.name) && words(&said).contains(item.name.as_str()));
            let Some(item) = more else { break };
            taken.insert(&item.name);
            said = [said.as_str(), &item.statement, &item.rest].join("\n");
        }
        files.extend(named(&text, &words(&said)));
    }
    files
}

/// The files that have to be believed: those that contracts and demands name, and all that these are made of.
pub fn believed() -> BTreeSet<String> {
    let mut believed: BTreeSet<String> = of_contracts().into_iter().chain(of_demands()).collect();
    let mut open: Vec<String> = believed.iter().cloned().collect();
    while let Some(file) = open.pop() {
        let needed = imports(&text_of(&file)).into_iter().filter_map(|import| import.definitions());
        open.extend(needed.filter(|file| believed.insert(file.clone())));
    }
    believed
}

/// The definitions of a file: those that stand under one comment in one row.
fn rows(text: &str) -> Vec<Vec<String>> {
    let mut rows: Vec<(Vec<String>, String)> = Vec::new();
    for item in items(text).into_iter().filter(|item| item.public) {
        match rows.last_mut() {
            Some((names, _)) if item.comment.is_empty() => names.push(item.name),
            _ => rows.push((vec![item.name], item.comment)),
        }
    }
    rows.into_iter().map(|(names, comment)| vec![code(&names), cell(&comment)]).collect()
}

pub fn page() -> String {
    let believed = believed();
    let files = files();
    let lines: BTreeMap<&String, usize> = files.iter().map(|file| (file, lines_of(&text_of(file)))).collect();
    let all: usize = lines.values().sum();
    let sum: usize = lines.iter().filter(|(file, _)| believed.contains(**file)).map(|(_, lines)| lines).sum();
    let mut page = top(
        "Definitions",
        &format!(
            "{} files hold every definition that an answer is measured by: {} lines without comments, imports and empty lines, \
             of {} in {} files of all `specs/` folders.\n\n\
             The files are found so. The contracts of all public functions outside modules `inside`, the statements of the crate \
             `demands` and what its theorems say name definitions; these files are taken, and every file that one of them \
             imports. A file that only private helpers or modules `inside` need is the code's own: no answer rests on believing it. \
             What is declared in code, a struct or an enum, stands in the code.\n\n\
             Under each file is what it says of itself, and then its public definitions with the comment above each; those without \
             one of their own stand with the one before.",
            believed.len(),
            grouped(sum),
            grouped(all),
            files.len(),
        ),
    );
    for file in files.iter().filter(|file| believed.contains(*file)) {
        let text = text_of(file);
        page += &format!("\n## `{file}`\n\n{} lines. {}\n\n", lines[file], head_of(&text));
        page += &table(&["Definition", "Says"], &rows(&text));
    }
    let own: Vec<&String> = files.iter().filter(|file| !believed.contains(*file)).collect();
    let rows: Vec<Vec<String>> = own
        .iter()
        .map(|file| vec![format!("`{file}`"), lines[*file].to_string(), cell(&head_of(&text_of(file)))])
        .collect();
    page += &format!(
        "\n## The code's own\n\nThe other {} files, {} lines. Nobody has to believe them.\n\n",
        own.len(),
        grouped(all - sum)
    );
    page + &table(&["File", "Lines", "What it says of itself"], &rows)
}
