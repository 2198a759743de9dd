//! The repository that the tests stand in.

use std::fs;
use std::path::PathBuf;

/// Its folder.
pub fn repository() -> PathBuf {
    PathBuf::from(env!("CARGO_MANIFEST_DIR")).join("..")
}

/// The text of one of its files.
pub fn text_of(file: &str) -> String {
    fs::read_to_string(repository().join(file)).unwrap_or_else(|error| panic!("{file}: {error}"))
}

/// The names of a folder's files that end so, without the ending, in alphabetical order; none where there is no folder.
pub fn names_in(folder: &str, ending: &str) -> Vec<String> {
    let Ok(entries) = fs::read_dir(repository().join(folder)) else { return Vec::new() };
    let names = entries.map(|entry| entry.expect("an entry").file_name().into_string().expect("a name"));
    let mut names: Vec<String> = names.filter_map(|name| name.strip_suffix(ending).map(str::to_owned)).collect();
    names.sort();
    names
}

/// The lines of crates.txt: what stands before the colon, and what stands after it.
fn lines() -> Vec<(String, String)> {
    let list = text_of("crates.txt");
    let lines = list.lines().filter(|line| !line.starts_with('#')).map(|line| line.split_once(':').expect("NAME: .."));
    lines.map(|(crate_, below)| (crate_.to_owned(), below.to_owned())).collect()
}

/// Each crate and those that it stands on, as crates.txt has them.
pub fn edges() -> Vec<(String, Vec<String>)> {
    let name = |words: &str| words.split_whitespace().next().expect("NAME: ..").to_owned();
    let names = |words: &str| words.split_whitespace().map(str::to_owned).collect();
    lines().iter().map(|(crate_, below)| (name(crate_), names(below))).collect()
}

/// Whether crates.txt says that a crate is a static library, which exports to C what a library promises.
pub fn is_exporting(name: &str) -> bool {
    lines().iter().any(|(crate_, _)| crate_.split_whitespace().eq([name, "staticlib"]))
}

/// The crates, each after those that it stands on.
pub fn crates() -> Vec<String> {
    edges().into_iter().map(|(name, _)| name).collect()
}
