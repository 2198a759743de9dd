//! The pages of docs/reference, made from the tree: the definitions that have to be believed, the theorems, the wrong
//! answers that are refused, and the public functions. The program `pages` writes them; a test compares them.

pub mod definitions;
pub mod functions;
pub mod source;
pub mod theorems;
pub mod wrong_answers;

/// The folder of the pages.
pub const FOLDER: &str = "docs/reference";

/// What writes them.
pub const COMMAND: &str = "cargo run --release --offline --manifest-path tests/Cargo.toml --bin pages";

/// A page: the name of its file and its text.
pub struct Page {
    pub file: &'static str,
    pub text: String,
}

/// All pages, as the tree gives them.
pub fn all() -> Vec<Page> {
    vec![
        Page { file: "definitions.md", text: definitions::page() },
        Page { file: "theorems.md", text: theorems::page() },
        Page { file: "wrong-answers.md", text: wrong_answers::page() },
        Page { file: "functions.md", text: functions::page() },
    ]
}

/// The beginning of every page.
fn top(title: &str, text: &str) -> String {
    format!("# {title}\n\nWritten from the tree by `{COMMAND}`; the tests compare it.\n\n{text}\n")
}

/// A table: its head and its rows.
fn table(head: &[&str], rows: &[Vec<String>]) -> String {
    let line = |cells: Vec<&str>| format!("| {} |\n", cells.join(" | "));
    let mut text = line(head.to_vec()) + &format!("|{}\n", "---|".repeat(head.len()));
    for row in rows {
        text += &line(row.iter().map(String::as_str).collect());
    }
    text
}

/// A text as a cell of a table.
fn cell(text: &str) -> String {
    text.replace('|', "\\|")
}

/// Names as they stand in code; a dash for none.
fn code(names: &[String]) -> String {
    if names.is_empty() {
        return "–".into();
    }
    names.iter().map(|name| format!("`{name}`")).collect::<Vec<_>>().join(", ")
}
