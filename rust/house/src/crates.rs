//! The crates of Rattle, as crates.txt lists them.

use crate::edits;
use crate::files;
use crate::functions_of;
use crate::read;
use crate::root;
use crate::File;
use crate::Function;
use crate::Wrong;
use std::path::PathBuf;

pub struct Crate {
    pub name: String,
    /// What it exports is linked to C and Rust, and no other crate uses it.
    pub is_for_c: bool,
    /// Those that it may use.
    pub uses: Vec<String>,
    pub(crate) folder: PathBuf,
}

/// All of them: in the list's order, but each behind those that it uses.
pub fn all() -> Vec<Crate> {
    let list = read(&root().join("crates.txt"));
    let mut left: Vec<Crate> = list.lines().filter_map(listed).collect();
    let mut all: Vec<Crate> = Vec::new();
    while !left.is_empty() {
        let waits = |one: &Crate| left.iter().any(|other| one.uses.contains(&other.name));
        let next = left
            .iter()
            .position(|one| !waits(one))
            .expect("no crate that uses itself");
        all.push(left.remove(next));
    }
    all
}

/// Those whose functions are called from elsewhere; the rest are programs.
pub fn libraries() -> Vec<Crate> {
    let mut all = all();
    all.retain(Crate::is_library);
    all
}

fn listed(line: &str) -> Option<Crate> {
    let line = line.split('#').next().unwrap_or_default();
    let (name, uses) = line.split_once(':')?;
    let (name, kind) = name.split_once(' ').unwrap_or((name, ""));
    Some(Crate {
        name: name.into(),
        is_for_c: kind == "staticlib",
        uses: uses.split_whitespace().map(String::from).collect(),
        folder: root().join("crates").join(name),
    })
}

impl Crate {
    pub fn is_library(&self) -> bool {
        self.folder.join("src/lib.rt").is_file()
    }

    /// The files of one of its folders and of those in it, but for proofs of single functions.
    pub fn files(&self, folder: &str) -> Vec<File> {
        files::below(&self.folder, folder)
    }

    /// What the file with this path says of itself.
    pub fn head(&self, path: &str) -> Option<String> {
        files::says(&read(&self.folder.join(path)))
    }

    pub fn functions(&self) -> Vec<Function> {
        self.files("src").iter().flat_map(functions_of).collect()
    }

    /// All wrong programs, edit by edit.
    pub fn wrong(&self) -> Vec<Wrong> {
        self.files("must-fail")
            .iter()
            .flat_map(|file| edits::of(self, file))
            .collect()
    }
}
