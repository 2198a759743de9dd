//! The wrong answers that the check has to refuse: the edits, by what they say of themselves.

use super::{cell, table, top};
use crate::tree::{crates, names_in, text_of};

/// An edit: its crate and its name, the wrong answer, and what refuses it; a text is empty where the file does not say it.
pub struct Edit {
    pub of: String,
    pub name: String,
    pub wrong: String,
    pub refused: String,
}

/// All edits, crate by crate.
pub fn edits() -> Vec<Edit> {
    let edits = crates().into_iter().flat_map(|of| {
        let folder = format!("crates/{of}/must-fail");
        let names = names_in(&folder, ".edit").into_iter();
        names.map(move |name| {
            let text = text_of(&format!("{folder}/{name}.edit"));
            let said =
                |word: &str| text.lines().find_map(|line| line.strip_prefix(word)).unwrap_or("").trim().to_owned();
            Edit { of: of.clone(), wrong: said("wrong: "), refused: said("refused: "), name }
        })
    });
    edits.collect()
}

pub fn page() -> String {
    let edits = edits();
    let mut page = top(
        "Wrong answers that are refused",
        &format!(
            "{} edits, each one change of a crate. The gate makes each in turn, and the check has to refuse the crate. An edit of a \
             definition alone shows that a law or an example pins the definition; one of the crate `demands`, that a statement says \
             something. An edit's file is `must-fail/NAME.edit` in its crate.",
            edits.len()
        ),
    );
    for of in crates() {
        let of_crate = edits.iter().filter(|edit| edit.of == of);
        let rows: Vec<Vec<String>> =
            of_crate.map(|edit| vec![format!("`{}`", edit.name), cell(&edit.wrong), cell(&edit.refused)]).collect();
        if !rows.is_empty() {
            page += &format!("\n## {of}\n\n{}", table(&["Edit", "The wrong answer", "What refuses it"], &rows));
        }
    }
    page
}
