//! Definitions that clauses cite, by their names.

use crate::root;
use crate::Crate;
use crate::File;
use crate::Function;
use std::collections::BTreeSet;

/// A name that a file of code takes from the definitions of a crate.
pub struct Import {
    pub name: String,
    /// The crate, and the file in its specs/ without its ending.
    pub file: String,
}

/// Those behind `ghost use Rattle.`, from the crates of the repository.
pub fn imports(source: &str) -> Vec<Import> {
    let mut all = Vec::new();
    for rest in source.split("ghost use Rattle.").skip(1) {
        let Some((path, names)) = rest.split_once(".{") else {
            continue;
        };
        let Some((library, path)) = path.split_once(".specs.") else {
            continue;
        };
        if !root().join("crates").join(library).is_dir() {
            continue;
        }
        let names = names.split('}').next().unwrap_or_default();
        let file = format!("{library}/{}", path.replace('.', "/"));
        all.extend(names.split(',').map(|name| Import {
            name: name.trim().into(),
            file: file.clone(),
        }));
    }
    all
}

/// The words of a clause or a definition. What stands behind a dot alone is a field of what is in brackets.
fn words(text: &str) -> impl Iterator<Item = &str> {
    text.split(|c: char| c.is_whitespace() || "(){},;«»".contains(c))
        .filter(|word| !word.is_empty() && !word.starts_with('.'))
}

/// The names in a clause, without the fields of what they name.
pub fn heads(text: &str) -> impl Iterator<Item = &str> {
    words(text).filter_map(|word| word.split('.').next())
}

/// The names in a clause or a definition, among them each part of a name with dots.
pub fn names(text: &str) -> impl Iterator<Item = &str> {
    words(text)
        .flat_map(|word| word.split('.'))
        .filter(|name| !name.is_empty())
}

/// Words before the name that a line of a definition, a law or a function gives.
const BEFORE: [&str; 11] = [
    "unfoldable ",
    "abbrev ",
    "pub ",
    "pub(crate) ",
    "extern \"C\" ",
    "record ",
    "data ",
    "struct ",
    "enum ",
    "const ",
    "fn ",
];

/// The name that a line declares.
fn declared(line: &str) -> Option<&str> {
    let mut rest = line;
    for word in BEFORE {
        rest = rest.strip_prefix(word).unwrap_or(rest);
    }
    let name = rest.split([' ', '(', '<', ':', ';']).next()?;
    let is_declared = rest.len() < line.len() || rest[name.len()..].starts_with(" :");
    (is_declared && !name.is_empty()).then_some(name)
}

/// Whether a line declares this name, also inside an `impl`.
pub fn declares(line: &str, name: &str) -> bool {
    declared(line.trim_start()) == Some(name)
}

/// The definition that a line of a file of definitions belongs to.
pub fn at_line(file: &File, line: usize) -> Option<String> {
    let lines: Vec<&str> = file.text.lines().collect();
    lines[..=line]
        .iter()
        .rev()
        .find_map(|line| declared(line))
        .map(String::from)
}

/// A definition's name, and what it is written with.
fn definitions(file: &File) -> Vec<(String, BTreeSet<String>)> {
    let mut all: Vec<(String, BTreeSet<String>)> = Vec::new();
    for line in file.text.lines().filter(|line| !line.starts_with("--")) {
        if let Some(name) = declared(line) {
            all.push((name.into(), BTreeSet::new()));
        }
        if let Some((_, written)) = all.last_mut() {
            written.extend(names(line).map(String::from));
        }
    }
    all
}

/// The definitions of a crate that go by this one, and itself.
fn behind(library: &Crate, definition: &str) -> BTreeSet<String> {
    let all: Vec<_> = library
        .files("specs")
        .iter()
        .flat_map(definitions)
        .collect();
    let mut behind = BTreeSet::from([definition.to_string()]);
    loop {
        let goes_by = |(name, written): &&(String, BTreeSet<String>)| {
            !behind.contains(name) && !written.is_disjoint(&behind)
        };
        let more: Vec<String> = all
            .iter()
            .filter(goes_by)
            .map(|(name, _)| name.clone())
            .collect();
        if more.is_empty() {
            return behind;
        }
        behind.extend(more);
    }
}

/// Of a crate's functions, those that a changed definition of it may break: it stands behind a name in their
/// contract, or in that of a function that they call. By names alone, so rather too many than too few.
pub fn broken_by<'a>(
    library: &Crate,
    definition: &str,
    functions: &'a [Function],
) -> Vec<&'a Function> {
    let behind = behind(library, definition);
    let promises = |function: &Function| {
        let mut clauses = function.requires.iter().chain(&function.ensures);
        clauses.any(|clause| names(clause).any(|name| behind.contains(name)))
    };
    let (mut broken, others): (Vec<&Function>, Vec<&Function>) =
        functions.iter().partition(|function| promises(function));
    let touched: BTreeSet<&str> = broken.iter().map(|function| function.name()).collect();
    let calls = |function: &&Function| {
        let mut words = function
            .body
            .split(|c: char| !c.is_alphanumeric() && c != '_');
        words.any(|word| touched.contains(word))
    };
    broken.extend(others.into_iter().filter(calls));
    broken
}
