//! Types of a source file, and the facts that stand in them.

use crate::cited;
use crate::definitions::Import;
use crate::functions::closing;
use crate::imports;
use crate::File;
use std::slice;

pub struct Type {
    pub name: String,
    /// Those of its ghost fields, told as those of a clause are: whoever makes a value has shown them.
    pub facts: Option<String>,
    /// The names that it is written with, the types of what it holds among them.
    holds: Vec<String>,
}

/// Each from the line that names it to the one that ends it, without comments.
pub fn types_of(file: &File) -> Vec<Type> {
    if !file.path.ends_with(".rt") {
        return Vec::new();
    }
    let imports = imports(&file.text);
    let bare = |line| str::split(line, "//").next().unwrap_or_default().trim_end();
    let lines: Vec<&str> = file.text.lines().map(bare).collect();
    let is_end = |line: &str| !line.starts_with(' ') && line.ends_with([';', '}']);
    let read = |(first, line): (usize, &&str)| {
        let rest = behind_kind(line)?;
        let last = first + lines[first..].iter().position(|line| is_end(line))?;
        let name = names_in(rest).next()?;
        Some(type_of(name, &lines[first..=last].join("\n"), &imports))
    };
    lines.iter().enumerate().filter_map(read).collect()
}

/// What stands behind the word for its kind in a type's first line. Another name for a type is like one that holds it.
fn behind_kind(line: &str) -> Option<&str> {
    let rest = ["pub ", "pub(crate) "]
        .iter()
        .find_map(|before| line.strip_prefix(before))
        .unwrap_or(line);
    ["struct ", "enum ", "type "]
        .iter()
        .find_map(|kind| rest.strip_prefix(kind))
}

/// A ghost field that isn't a fact in braces is held like any other.
fn type_of(name: &str, text: &str, imports: &[Import]) -> Type {
    let mut facts = Vec::new();
    let mut parts = text.split("ghost ");
    let mut held: Vec<&str> = parts.next().into_iter().collect();
    for part in parts {
        let fact = part
            .split_once(':')
            .map(|(_, fact)| fact.trim_start())
            .filter(|fact| fact.starts_with('{'));
        let Some(fact) = fact else {
            held.push(part);
            continue;
        };
        let end = closing(fact);
        let words: Vec<&str> = fact[1..end].split_whitespace().collect();
        facts.push(words.join(" "));
        held.push(&fact[end..]);
    }
    Type {
        name: name.into(),
        facts: (!facts.is_empty()).then(|| cited(&facts, imports)),
        holds: held
            .into_iter()
            .flat_map(names_in)
            .map(String::from)
            .collect(),
    }
}

/// The names that code is written with, each as often as it stands there.
pub(crate) fn names_in(code: &str) -> impl Iterator<Item = &str> {
    code.split(|c: char| !c.is_alphanumeric() && c != '_')
        .filter(|name| !name.is_empty())
}

/// Those that have facts, of the types with these names and of what these hold, with their facts. They are taken by
/// their bare names, not by what a file imports: `shared` tells where a name isn't enough.
pub fn with_facts<'a>(types: &'a [Type], names: &[String]) -> Vec<(&'a str, &'a str)> {
    let mut reached = Vec::new();
    reach(types, names, &mut reached);
    let told = |one: &&'a Type| Some((&*one.name, one.facts.as_deref()?));
    reached.iter().filter_map(told).collect()
}

fn reach<'a>(types: &'a [Type], names: &[String], reached: &mut Vec<&'a Type>) {
    for name in names {
        for one in types.iter().filter(|one| one.name == *name) {
            if !reached.iter().any(|other| std::ptr::eq(*other, one)) {
                reached.push(one);
                reach(types, &one.holds, reached);
            }
        }
    }
}

/// The names of several types by which facts are reached: a function that is handed one would be told to require
/// those of another.
pub fn shared(types: &[Type]) -> Vec<&str> {
    let mut shared = Vec::new();
    for (i, one) in types.iter().enumerate() {
        let is_shared = types[..i].iter().any(|other| other.name == one.name);
        if is_shared && !with_facts(types, slice::from_ref(&one.name)).is_empty() {
            shared.push(&*one.name);
        }
    }
    shared
}
