//! Every exported function is declared for C and for Rust.

use std::collections::BTreeSet;
use std::fs;
use std::path::Path;

const ROOT: &str = concat!(env!("CARGO_MANIFEST_DIR"), "/../..");

fn read(path: &Path) -> String {
    fs::read_to_string(path).unwrap_or_else(|error| panic!("{}: {error}", path.display()))
}

/// The names of functions that stand before a bracket, or before a lifetime and a bracket.
fn names(text: &str) -> BTreeSet<String> {
    let text = text.replace("<'a>", "");
    let parts = text.split(|c: char| !(c.is_ascii_alphanumeric() || c == '_' || c == '('));
    let called = parts.filter_map(|part| part.split_once('('));
    let names = called.map(|(name, _)| name.to_string());
    names
        .filter(|name| name.starts_with("jaskkovir_"))
        .collect()
}

#[test]
fn names_are_found() {
    let text =
        "uint8_t jaskkovir_a(int x); /* jaskkovir_b */ pub fn jaskkovir_c( fn jaskkovir_d<'a>(";
    let found = names(text);
    assert!(found
        .iter()
        .eq(["jaskkovir_a", "jaskkovir_c", "jaskkovir_d"]));
}

#[test]
fn exported_functions_are_declared() {
    let root = Path::new(ROOT);
    let mut exported = BTreeSet::new();
    for entry in fs::read_dir(root.join("crates/jaskkovir_c/src")).unwrap() {
        exported.extend(names(&read(&entry.unwrap().path())));
    }
    let for_c = names(&read(&root.join("include/jaskkovir.h")));
    let for_rust = names(&read(&root.join("rust/jaskkovir/src/abi.rs")));
    assert_eq!(for_c, exported);
    assert_eq!(for_rust, exported);
}
