//! Functions of a source file: their lines, and the clauses of their contracts.

use crate::types::names_in;
use crate::File;

pub struct Function {
    /// In its crate: modules, the type whose function it is, its name.
    pub path: String,
    pub public: bool,
    /// The names in its parameters, their types among them; for `self`, the type whose function it is.
    pub takes: Vec<String>,
    /// The type of what it gives back, if it does.
    pub result: String,
    pub requires: Vec<String>,
    pub ensures: Vec<String>,
    pub body: String,
    /// From its first line to its last, counted from 0.
    pub first: usize,
    pub last: usize,
}

impl Function {
    pub fn name(&self) -> &str {
        self.path.rsplit("::").next().unwrap_or(&self.path)
    }

    /// It gives something back.
    pub fn answers(&self) -> bool {
        !self.result.is_empty()
    }

    /// It has a contract.
    pub fn promises(&self) -> bool {
        !self.requires.is_empty() || !self.ensures.is_empty()
    }

    /// It reads or prints.
    pub fn does_io(&self) -> bool {
        self.result.starts_with("io::")
    }

    /// How many lines its body has.
    pub fn lines(&self) -> usize {
        self.body.lines().count()
    }
}

/// Each from its `fn` to the brace at its own depth.
pub fn functions_of(file: &File) -> Vec<Function> {
    if !file.path.ends_with(".rt") {
        return Vec::new();
    }
    let lines: Vec<&str> = file.text.lines().collect();
    let begins =
        |line: &str| line.starts_with("fn ") || (line.starts_with("pub") && line.contains("fn "));
    let starts = (0..lines.len()).filter(|i| begins(lines[*i].trim_start()));
    starts
        .map(|i| function(&file.module(), &lines, i))
        .collect()
}

/// The type whose functions stand where a line does.
fn owner<'a>(lines: &[&'a str], at: usize) -> Option<&'a str> {
    if !lines[at].starts_with(' ') {
        return None;
    }
    lines[..at]
        .iter()
        .rev()
        .find_map(|line| line.strip_prefix("impl"))
        .and_then(of_type)
}

/// The name of the type in what stands behind `impl`: `<'a> Fields<'a> {`, ` TryFrom<u8> for Role {`.
fn of_type(rest: &str) -> Option<&str> {
    let bare = match rest.strip_prefix('<') {
        Some(generic) => generic.split_once('>')?.1,
        None => rest,
    };
    let of = bare.split_once(" for ").map_or(bare, |(_, of)| of);
    of.split([' ', '<']).find(|word| !word.is_empty())
}

fn function(module: &str, lines: &[&str], first: usize) -> Function {
    let start = lines[first].trim_start();
    let end = format!("{}}}", " ".repeat(lines[first].len() - start.len()));
    let is_end = |line: &&str| **line == end;
    let last = first
        + lines[first..]
            .iter()
            .position(|line| is_end(&line))
            .expect("an end");
    let text = lines[first..=last].join("\n");
    let head = Head::of(&text);
    let (_, behind) = text.split_once("fn ").expect("a name");
    let name = behind.split(['(', '<']).next().unwrap_or_default();
    let owner = owner(lines, first).unwrap_or_default();
    let names = [module, owner, name];
    let names: Vec<&str> = names.into_iter().filter(|name| !name.is_empty()).collect();
    Function {
        path: names.join("::"),
        public: start.starts_with("pub fn") || start.starts_with("pub extern"),
        takes: taken(behind, owner),
        result: head.result,
        requires: head.requires,
        ensures: head.ensures,
        body: text[head.end..].into(),
        first,
        last,
    }
}

/// The names in the parameters of what stands behind `fn`.
fn taken(behind: &str, owner: &str) -> Vec<String> {
    let open = behind.find('(').expect("parameters");
    let parameters = &behind[open..open + closing(&behind[open..])];
    let told = |name| match name {
        "self" | "Self" => owner,
        other => other,
    };
    names_in(parameters).map(told).map(String::from).collect()
}

/// What stands before a function's body.
#[derive(Default)]
struct Head {
    result: String,
    requires: Vec<String>,
    ensures: Vec<String>,
    /// Where the body begins.
    end: usize,
}

impl Head {
    fn of(text: &str) -> Head {
        let mut head = Head::default();
        let mut at = 0;
        loop {
            let open = at + text[at..].find('{').expect("a body");
            let close = open + closing(&text[open..]);
            let inside = || {
                text[open + 1..close]
                    .split_whitespace()
                    .collect::<Vec<_>>()
                    .join(" ")
            };
            let before = text[at..open].trim_end();
            if let Some((_, result)) = before.split_once("-> ") {
                let words = result.split_whitespace();
                let words = words.take_while(|word| !["requires", "ensures"].contains(word));
                head.result = words.collect::<Vec<_>>().join(" ");
            }
            match clause(before) {
                Some("requires") => head.requires.push(inside()),
                Some(_) => head.ensures.push(inside()),
                None => {
                    head.end = open;
                    return head;
                }
            }
            at = close + 1;
        }
    }
}

/// The kind of the clause whose brace comes next. It may have a name of its own.
fn clause(before: &str) -> Option<&str> {
    let last = before.split_whitespace().rev().take(2);
    last.into_iter()
        .find(|word| ["requires", "ensures"].contains(word))
}

/// Where the bracket is closed that a text begins with.
pub(crate) fn closing(text: &str) -> usize {
    let mut depth = 0;
    for (at, c) in text.char_indices() {
        match c {
            '(' | '{' => depth += 1,
            ')' | '}' => depth -= 1,
            _ => {}
        }
        if depth == 0 {
            return at;
        }
    }
    panic!("a bracket that isn't closed: {text}")
}
