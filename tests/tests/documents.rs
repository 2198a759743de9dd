//! What the documents say of the tree is so: the pages of docs/reference are those that the tree gives, every public
//! function has its line in demand 1, every wrong answer that is tried says what it is, and what is named is there.

use a6plan_tests::pages::{self, definitions, functions, source, wrong_answers};
use a6plan_tests::tree::{crates, edges, names_in, repository, text_of};
use std::collections::{BTreeMap, BTreeSet};
use std::fs;

#[test]
fn the_reference_pages_are_those_of_the_tree() {
    for page in pages::all() {
        let file = format!("{}/{}", pages::FOLDER, page.file);
        let there = fs::read_to_string(repository().join(&file)).unwrap_or_default();
        let differs = there.lines().zip(page.text.lines()).position(|(old, new)| old != new);
        let line = differs.unwrap_or(there.lines().count().min(page.text.lines().count())) + 1;
        assert!(
            there == page.text,
            "{file} is not what the tree gives, from line {line} on; write it anew: {}",
            pages::COMMAND
        );
    }
    let files: BTreeSet<String> = names_in(pages::FOLDER, ".md").into_iter().map(|name| format!("{name}.md")).collect();
    assert_eq!(files, pages::all().iter().map(|page| page.file.to_owned()).collect());
}

/// A definition that READING leads to is one of those that have to be believed.
#[test]
fn reading_leads_to_what_has_to_be_believed() {
    let believed = definitions::believed();
    let page = text_of("docs/READING.md");
    for file in ticked(&page).into_iter().filter(|file| file.contains("/specs/")) {
        assert!(believed.contains(&file), "{file} is not among what has to be believed");
    }
    for row in rows_after(&page, "| Definition | File | Says | 01 |") {
        let texts: String = ticked(&row[1]).iter().map(|file| text_of(file)).collect();
        for name in ticked(&row[0]) {
            assert!(
                source::items(&texts).iter().any(|item| item.public && item.name == name),
                "{name} is not in {}",
                row[1]
            );
        }
    }
}

/// READING is read in five minutes.
#[test]
fn reading_is_one_page() {
    let lines = text_of("docs/READING.md").lines().count();
    assert!(lines <= 90, "docs/READING.md has {lines} lines");
}

/// The edits that the page lists, by crate and name, are those that there are.
#[test]
fn every_wrong_answer_is_listed() {
    let page = text_of("docs/reference/wrong-answers.md");
    let mut listed = Vec::new();
    for section in page.split("\n## ").skip(1) {
        let (of, rows) = section.split_once("\n\n").expect("a table");
        let rows = rows.lines().filter(|row| row.starts_with("| `"));
        listed.extend(rows.map(|row| format!("{of}/{}", row.split('`').nth(1).expect("a name"))));
    }
    let edits = crates().into_iter().flat_map(|of| {
        names_in(&format!("crates/{of}/must-fail"), ".edit").into_iter().map(move |name| format!("{of}/{name}"))
    });
    assert_eq!(listed, edits.collect::<Vec<_>>());
}

/// An edit has a line `wrong: ..`, the wrong answer in words, and a line `refused: ..`, what refuses it.
#[test]
fn every_edit_says_what_it_is() {
    let silent = wrong_answers::edits().into_iter().filter(|edit| edit.wrong.is_empty() || edit.refused.is_empty());
    let silent: Vec<String> = silent.map(|edit| format!("{}/{}", edit.of, edit.name)).collect();
    assert!(silent.is_empty(), "{} edits do not say what they are: {silent:?}", silent.len());
}

#[test]
fn every_edit_has_a_name_of_its_own() {
    let mut of: BTreeMap<String, Vec<String>> = BTreeMap::new();
    for edit in wrong_answers::edits() {
        of.entry(edit.name).or_default().push(edit.of);
    }
    of.retain(|_, crates| crates.len() > 1);
    assert!(of.is_empty(), "the same name in more than one crate: {of:?}");
}

/// The names in backticks of a text.
fn ticked(text: &str) -> Vec<String> {
    text.split('`').skip(1).step_by(2).map(str::to_owned).collect()
}

/// The rows of a table in a page, as their cells, from the row after its head on.
fn rows_after(page: &str, head: &str) -> Vec<Vec<String>> {
    let (_, rest) = page.split_once(&format!("\n{head}\n")).unwrap_or_else(|| panic!("no table {head}"));
    let rows = rest.lines().skip(1).take_while(|line| line.starts_with('|'));
    rows.map(|row| row.trim_matches('|').split('|').map(|cell| cell.trim().to_owned()).collect()).collect()
}

#[test]
fn every_file_that_is_named_is_there() {
    let roots = ["README.md", "CHANGELOG.md"].map(str::to_owned);
    let folders = ["docs", "docs/changes", "docs/reference"];
    let pages = folders
        .iter()
        .flat_map(|folder| names_in(folder, ".md").into_iter().map(move |name| format!("{folder}/{name}.md")));
    for document in roots.into_iter().chain(pages) {
        let text = text_of(&document);
        for named in ticked(&text) {
            let is_path =
                ["crates/", "docs/", "tests/", "examples/", "include/"].iter().any(|folder| named.starts_with(folder));
            // Not a pattern, a command, or a name to be chosen.
            let is_file = is_path && !named.contains(['*', ' ', '<']) && !named.contains("/NAME/");
            assert!(!is_file || repository().join(&named).exists(), "{document} names {named}");
        }
        let folder = repository().join(&document).parent().expect("a folder").to_owned();
        for link in text.split("](").skip(1).map(|rest| rest.split(')').next().expect("a link")) {
            let file = link.split('#').next().expect("a file");
            assert!(file.contains("://") || folder.join(file).exists(), "{document} links to {link}");
        }
    }
}

/// ARCHITECTURE has every crate with what crates.txt says that it stands on, and no crate stands on its own layer or on
/// one above.
#[test]
fn the_architecture_is_that_of_the_crates() {
    let page = text_of("docs/ARCHITECTURE.md");
    let shown = rows_after(&page, "| Crate | Subject | Stands on |");
    let shown: Vec<(String, Vec<String>)> =
        shown.iter().map(|row| (ticked(&row[0]).remove(0), ticked(&row[2]))).collect();
    assert_eq!(shown, edges());
    let mut layers: BTreeMap<String, usize> = BTreeMap::new();
    for row in rows_after(&page, "| Layer | Crates | What belongs there |") {
        let layer = row[0].parse().expect("the number of a layer");
        layers.extend(ticked(&row[1]).into_iter().map(|name| (name, layer)));
    }
    for (name, below) in edges() {
        for lower in below {
            assert!(layers[&lower] < layers[&name], "{name} stands on {lower}, which is no layer below");
        }
    }
    assert_eq!(layers.into_keys().collect::<BTreeSet<_>>(), crates().into_iter().collect());
}

/// The header's version is the newest one of the changelog, as text and by its parts.
#[test]
fn the_version_is_that_of_the_changelog() {
    let (header, changelog) = (text_of("include/a6plan.h"), text_of("CHANGELOG.md"));
    let mut versions = changelog.lines().filter_map(|line| Some(line.strip_prefix("## [")?.split_once(']')?.0));
    let newest = versions.find(|version| *version != "Unreleased").expect("a version");
    assert!(header.contains(&format!("#define A6PLAN_VERSION \"{newest}\"\n")), "{newest}");
    for (part, number) in ["MAJOR", "MINOR", "PATCH"].iter().zip(newest.split('.')) {
        assert!(header.contains(&format!("#define A6PLAN_VERSION_{part} {number}\n")), "{part} of {newest}");
    }
}

/// Outside modules `inside`, a public function asks nothing of its caller and has a theorem in demand 1; and demand 1 has
/// no other function.
#[test]
fn every_public_function_promises_its_definition() {
    let mut functions = BTreeSet::new();
    for name in crates() {
        for function in source::public_functions(&name) {
            let path = format!("{name}::{}", function.path("::"));
            assert!(!function.asks(), "{path} asks something of its caller");
            assert!(!function.contract.is_empty(), "{path} promises nothing");
            functions.insert(path);
        }
    }
    let promised: BTreeSet<String> = functions::promises().into_iter().map(|(function, _)| function).collect();
    assert_eq!(functions, promised, "public functions, and those of demand 1");
    assert!(!functions.is_empty());
}

/// A decision has a date and a title, and is short.
#[test]
fn every_decision_is_short() {
    let page = text_of("docs/DECISIONS.md");
    let mut titles = BTreeSet::new();
    for entry in page.split("\n\n").filter(|block| block.starts_with("**")) {
        let (title, text) = entry[2..].split_once(".** ").unwrap_or_else(|| panic!("**DATE. Title.** ..: {entry}"));
        let (date, title) = title.split_once(". ").unwrap_or_else(|| panic!("no date: {title}"));
        assert!(date.len() == 10 && date.starts_with("20"), "{date} is no date");
        assert!(titles.insert(title), "{title} stands twice");
        let words = title.split_whitespace().count() + text.split_whitespace().count();
        assert!(words < 120, "{title} has {words} words");
    }
    assert!(!titles.is_empty());
}
