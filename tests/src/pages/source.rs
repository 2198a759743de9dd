//! Reads what the pages need of the sources: imports, definitions and laws with their comments, public functions with
//! their contracts. It goes by the layout that `rt fmt` gives.

use crate::tree::{crates, is_exporting, repository, text_of};
use std::collections::BTreeSet;

/// An import of a module of one of our crates.
pub struct Import {
    pub of: String,
    /// The folder of the module, `specs` or `proofs`, and the module in it.
    pub folder: String,
    pub module: String,
    /// The names that it brings, or the name that it gives the module.
    pub names: Vec<String>,
    pub alias: Option<String>,
}

impl Import {
    /// The file of definitions that is imported. What is declared or promised in code stands in the code and has none.
    pub fn definitions(&self) -> Option<String> {
        let of_code = ["declared", "contracts"].iter().any(|folder| self.module.starts_with(folder));
        let is_file = self.folder == "specs" && !of_code;
        is_file.then(|| format!("crates/{}/specs/{}.antt", self.of, self.module))
    }

    /// Whether one of the words comes from it.
    pub fn brings(&self, words: &BTreeSet<&str>) -> bool {
        let mut names = self.names.iter().chain(&self.alias);
        names.any(|name| words.contains(name.as_str()))
    }
}

/// The imports of our own modules, in a file of code or of logic: `use Rattle.CRATE.FOLDER.MODULE.{NAMES}`, or `as ALIAS`
/// in place of the names; CRATE may be the file's own, and one that crates.txt does not list is the kit's.
pub fn imports(text: &str) -> Vec<Import> {
    let ours = crates();
    let text = format!("\n{}", text.replace("\nghost use ", "\nuse "));
    let import = |part: &str| {
        let part = part.strip_prefix("Rattle.")?;
        let end = part.find(['}', '\n']).unwrap_or(part.len());
        let end = if part[..end].contains('{') { part.find('}')? } else { end };
        let (path, names, alias) = match part[..end].split_once(".{") {
            Some((path, names)) => (path, names, None),
            None => match part[..end].split_once(" as ") {
                Some((path, alias)) => (path, "", Some(alias.trim().to_owned())),
                None => (&part[..end], "", None),
            },
        };
        let (of, rest) = path.split_once('.')?;
        let (folder, module) = rest.split_once('.')?;
        if !ours.iter().any(|name| name == of) {
            return None;
        }
        let names = names.split(',').map(str::trim).filter(|name| !name.is_empty()).map(str::to_owned).collect();
        Some(Import { of: of.to_owned(), folder: folder.to_owned(), module: module.to_owned(), names, alias })
    };
    text.split("\nuse ").skip(1).filter_map(import).collect()
}

/// The words of a text.
pub fn words(text: &str) -> BTreeSet<&str> {
    let ends = |letter: char| letter.is_whitespace() || "(){}[],;.λ→:=|".contains(letter);
    text.split(ends).filter(|word| !word.is_empty()).collect()
}

/// The lines of a file that are neither comments nor imports nor empty.
pub fn lines_of(text: &str) -> usize {
    let mut importing = false;
    let mut count = 0;
    for line in text.lines().map(str::trim) {
        if importing || line.starts_with("use ") {
            importing = !line.contains('}') && (importing || line.contains('{'));
        } else if !line.is_empty() && !line.starts_with("--") {
            count += 1;
        }
    }
    count
}

/// What a file of logic defines or proves, with all that stands between it and the next.
pub struct Item {
    pub name: String,
    pub public: bool,
    /// A type, or a short name: never a theorem.
    pub is_definition: bool,
    /// The comment right above it, and the heading (`-- ---- ..`) that it stands under; empty where there is none.
    pub comment: String,
    pub heading: String,
    /// Its type, with the fields of a record and the cases of a type; and what follows up to an empty line.
    pub statement: String,
    pub rest: String,
}

fn indent(line: &str) -> usize {
    line.len() - line.trim_start().len()
}

/// A comment's text.
fn comment_in(line: &str) -> Option<&str> {
    line.trim().strip_prefix("--").map(str::trim)
}

/// The comment that a file begins with.
pub fn head_of(text: &str) -> String {
    text.lines().map_while(comment_in).collect::<Vec<_>>().join(" ")
}

/// The items of a file of logic.
pub fn items(text: &str) -> Vec<Item> {
    let lines: Vec<&str> = text.lines().collect();
    let mut items = Vec::new();
    let (mut comment, mut heading) = (String::new(), String::new());
    let mut at = 0;
    while at < lines.len() {
        let line = lines[at];
        at += 1;
        if let Some(text) = comment_in(line) {
            if let Some(text) = text.strip_prefix("---- ") {
                (comment, heading) = (String::new(), text.to_owned());
            } else {
                comment = [comment.as_str(), text].join(" ").trim().to_owned();
            }
            continue;
        }
        if let Some(mut item) = begun(line) {
            (item.comment, item.heading) = (comment.clone(), heading.clone());
            let next = |at: usize| lines.get(at).filter(|line| !line.trim().is_empty());
            let mut part = vec![line];
            while let Some(more) = next(at).filter(|more| indent(more) > indent(line)) {
                part.push(more);
                at += 1;
            }
            item.statement = part.join("\n");
            let mut part = Vec::new();
            while let Some(more) = next(at) {
                part.push(*more);
                at += 1;
            }
            item.rest = part.join("\n");
            items.push(item);
        }
        comment = String::new();
    }
    items
}

/// The item that begins with this line, by its name.
fn begun(line: &str) -> Option<Item> {
    let line = line.trim();
    let (short, line) = ["unfoldable ", "abbrev "]
        .iter()
        .find_map(|word| Some((true, line.strip_prefix(word)?)))
        .unwrap_or((false, line));
    let (public, line) = line.strip_prefix("pub ").map_or((false, line), |line| (true, line));
    let (of_type, line) =
        ["data ", "record "].iter().find_map(|word| Some((true, line.strip_prefix(word)?))).unwrap_or((false, line));
    let (name, rest) = line.split_once(' ')?;
    let is_item = of_type || (rest.starts_with(": ") && !name.starts_with('('));
    is_item.then(|| Item {
        name: name.to_owned(),
        public,
        is_definition: short || of_type,
        comment: String::new(),
        heading: String::new(),
        statement: String::new(),
        rest: String::new(),
    })
}

/// A public function.
pub struct Function {
    /// Its module, empty for the crate's root, and its name.
    pub module: String,
    pub name: String,
    /// The comment above it.
    pub comment: String,
    /// Its `requires` and `ensures`.
    pub contract: String,
}

impl Function {
    /// Its path within the crate, with this between the module and the name.
    pub fn path(&self, between: &str) -> String {
        if self.module.is_empty() {
            return self.name.clone();
        }
        format!("{}{between}{}", self.module, self.name)
    }

    /// Whether it asks something of its caller.
    pub fn asks(&self) -> bool {
        self.contract.lines().any(|line| line.trim().starts_with("requires "))
    }
}

/// The files of a library that hold its public functions, by their modules: its root, and each `pub mod` of it but `inside`.
/// A static library has none: it exports what a library promises.
pub fn public_files(of: &str) -> Vec<(String, String)> {
    let file = |module: &str| format!("crates/{of}/src/{module}.rt");
    if is_exporting(of) || !repository().join(file("lib")).exists() {
        return Vec::new();
    }
    let text = text_of(&file("lib"));
    let modules = text.lines().filter_map(|line| line.strip_prefix("pub mod ")?.strip_suffix(';'));
    let mut files = vec![(String::new(), file("lib"))];
    for module in modules.filter(|module| *module != "inside") {
        let within = text_of(&file(module));
        assert!(
            !within.contains("\npub mod "),
            "{of}::{module} has public modules of its own, which are not looked into"
        );
        files.push((module.to_owned(), file(module)));
    }
    files
}

/// The public functions of a crate outside its module `inside`.
pub fn public_functions(of: &str) -> Vec<Function> {
    public_files(of).iter().flat_map(|(module, file)| functions_in(module, &text_of(file))).collect()
}

/// The type of a block of methods, where a line begins one.
fn methods_of(line: &str) -> Option<&str> {
    let rest = line.strip_prefix("impl")?.strip_suffix(" {")?;
    let head = rest.rsplit_once("> ").map_or(rest, |(_, head)| head).trim();
    let is_one = !rest.contains(" for ");
    is_one.then(|| head.split('<').next().expect("a name"))
}

/// The public functions of a file, and the public methods of its types.
pub fn functions_in(module: &str, text: &str) -> Vec<Function> {
    let mut functions = Vec::new();
    let mut comment = String::new();
    let mut of = None;
    let mut lines = text.lines();
    while let Some(whole) = lines.next() {
        let indented = whole.starts_with("    ") && of.is_some();
        let margin = if indented { "    " } else { "" };
        let line = whole.strip_prefix(margin).expect("a margin");
        if !indented && !whole.is_empty() {
            of = methods_of(line);
        }
        if let Some(head) = line.strip_prefix("pub fn ").or_else(|| line.strip_prefix("pub extern \"C\" fn ")) {
            let name = head.split(['(', '<']).next().expect("a name");
            let name = of.map_or(name.to_owned(), |of: &str| format!("{of}::{name}"));
            let end = format!("{margin}{{");
            let rest: Vec<&str> = lines.by_ref().take_while(|line| *line != end).collect();
            let begins = |line: &&str| ["requires ", "ensures "].iter().any(|word| line.trim().starts_with(word));
            let contract: Vec<&str> = rest.into_iter().skip_while(|line| !begins(line)).collect();
            let comment = std::mem::take(&mut comment);
            functions.push(Function { module: module.to_owned(), name, comment, contract: contract.join("\n") });
        } else if let Some(text) = line.strip_prefix("//") {
            comment = [comment.as_str(), text.trim()].join(" ").trim().to_owned();
        } else if !line.starts_with("#[") {
            comment = String::new();
        }
    }
    functions
}
