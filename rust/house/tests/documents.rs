//! The documents that are written by hand: lines that can be read, names and places that are there; and the
//! first lines of the Rust.

use house::all;
use house::by_hand;
use house::declares;
use house::libraries;
use house::read;
use house::root;
use house::WIDEST;
use std::fs;
use std::path::Path;
use std::path::PathBuf;

/// What is told of, and fails the test where there is any.
fn none(faults: Vec<String>) {
    assert!(faults.is_empty(), "\n{}", faults.join("\n"));
}

/// A path from the repository's root.
fn shown(path: &Path) -> String {
    let path = path.strip_prefix(root()).unwrap_or(path);
    path.display().to_string()
}

/// Those in docs/, but for what was supplied, and those of the repository and its Rust.
fn documents() -> Vec<PathBuf> {
    let top = [
        "README.md",
        "CONTRIBUTING.md",
        "CHANGELOG.md",
        "rust/README.md",
    ];
    let mut all: Vec<PathBuf> = fs::read_dir(root().join("docs"))
        .expect("docs")
        .map(|entry| entry.expect("a folder's entry").path())
        .filter(|path| path.extension().is_some_and(|ending| ending == "md"))
        .collect();
    all.extend(top.map(|name| root().join(name)));
    all.sort();
    all
}

#[test]
fn no_line_is_wide() {
    let mut faults = Vec::new();
    for path in documents() {
        for (i, line) in read(&path).lines().enumerate() {
            let width = line.chars().count();
            if width > WIDEST {
                faults.push(format!("{}:{}: {width} characters", shown(&path), i + 1));
            }
        }
    }
    none(faults);
}

#[test]
fn every_link_leads_somewhere() {
    let mut faults = Vec::new();
    for path in documents() {
        let text = read(&path);
        let targets = text
            .split("](")
            .skip(1)
            .filter_map(|rest| rest.split(')').next());
        let here = path.parent().expect("a folder");
        for target in targets.filter(|target| !target.contains("://") && !target.starts_with('#')) {
            let file = target.split('#').next().unwrap_or(target);
            if !here.join(file).exists() {
                faults.push(format!("{}: {target} is nowhere", shown(&path)));
            }
        }
    }
    none(faults);
}

/// The files of Rust in a folder and in those below it, but for what was built.
fn sources(folder: PathBuf) -> Vec<PathBuf> {
    let paths = fs::read_dir(folder).expect("a folder");
    let paths = paths.map(|entry| entry.expect("a folder's entry").path());
    let below = |path: PathBuf| match path.is_dir() {
        true if path.ends_with("target") => Vec::new(),
        true => sources(path),
        false => vec![path],
    };
    paths
        .flat_map(below)
        .filter(|path| path.extension().is_some_and(|ending| ending == "rs"))
        .collect()
}

#[test]
fn every_file_of_rust_says_what_it_is_for() {
    let is_silent = |path: &PathBuf| !read(path).starts_with("//! ");
    let told = |path: PathBuf| format!("{} doesn't say what it is for", shown(&path));
    none(
        sources(root().join("rust"))
            .into_iter()
            .filter(is_silent)
            .map(told)
            .collect(),
    );
}

/// Folders whose files the documents name by their paths from the root.
const FOLDERS: [&str; 6] = [
    "crates/",
    "docs/",
    "examples/",
    "include/",
    "real/",
    "rust/",
];

#[test]
fn every_path_leads_somewhere() {
    let mut faults = Vec::new();
    for path in documents() {
        let text = read(&path);
        let words = text.split(|c: char| c.is_whitespace() || "`()[]|,;:\"".contains(c));
        let is_path = |word: &&str| {
            FOLDERS.iter().any(|folder| word.starts_with(folder)) && !word.contains('*')
        };
        for word in words.filter(is_path) {
            let name = word.trim_end_matches('.');
            if !root().join(name).exists() {
                faults.push(format!("{}: {name} is nowhere", shown(&path)));
            }
        }
    }
    none(faults);
}

#[test]
fn every_crate_is_in_the_picture() {
    let architecture = by_hand(&read(&root().join("docs/ARCHITECTURE.md")));
    let is_named = |name: &str| {
        let mut words = architecture.split(|c: char| !c.is_alphanumeric() && c != '_');
        words.any(|word| word == name)
    };
    let faults = all()
        .into_iter()
        .filter(|one| !is_named(&one.name))
        .map(|one| format!("ARCHITECTURE: {} isn't told of by hand", one.name))
        .collect();
    none(faults);
}

#[test]
fn what_is_named_as_proved_is_there() {
    let texts: Vec<String> = libraries()
        .iter()
        .flat_map(|library| ["src", "specs", "proofs"].map(|folder| library.files(folder)))
        .flatten()
        .map(|file| file.text)
        .collect();
    let is_declared = |name: &str| {
        texts
            .iter()
            .any(|text| text.lines().any(|line| declares(line, name)))
    };
    // Paths, crates, modules, and the plain reading beside the Rust.
    let is_place = |name: &str| {
        name.contains('/')
            || root().join("crates").join(name).is_dir()
            || root().join("rust/oracle/src").join(name).is_dir()
    };
    let base = read(&root().join("docs/BASE.md"));
    let names = base.split('`').skip(1).step_by(2);
    none(
        names
            .filter(|name| !is_place(name) && !is_declared(name))
            .map(|name| format!("BASE: {name} is nowhere"))
            .collect(),
    );
}
