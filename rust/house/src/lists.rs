//! The lists of docs/ARCHITECTURE.md: the crates, and the files of each with what they say of themselves.

use crate::crates;
use crate::wrap::wrap;
use crate::Crate;
use crate::File;
use crate::Printed;
use std::collections::BTreeMap;

/// The names of the lists, as the lines around each name it.
const LISTS: [&str; 2] = ["crates", "files"];

fn begins(list: &str) -> String {
    format!("<!-- {list}: printed by rust/house from here -->\n")
}

fn ends(list: &str) -> String {
    format!("<!-- {list}: printed by rust/house to here -->\n")
}

/// The document with its lists printed anew.
pub fn architecture(document: &str) -> Printed {
    let crates = crates::all();
    let mut faults = Vec::new();
    let printed = [listed(&crates, &mut faults), filed(&crates, &mut faults)];
    let mut text = document.to_string();
    for (list, printed) in LISTS.iter().zip(&printed) {
        match apart(&text, list) {
            Some((before, _, after)) => text = format!("{before}\n{printed}\n{after}"),
            None => faults.push(format!("ARCHITECTURE has no place for its {list}")),
        }
    }
    Printed { text, faults }
}

/// The document without its lists.
pub fn by_hand(document: &str) -> String {
    LISTS.iter().fold(document.to_string(), |text, list| {
        match apart(&text, list) {
            Some((before, _, after)) => format!("{before}{after}"),
            None => text,
        }
    })
}

/// What stands before a list, in it and behind it, the lines around it left where they are.
fn apart<'a>(document: &'a str, list: &str) -> Option<(&'a str, &'a str, &'a str)> {
    let (begins, ends) = (begins(list), ends(list));
    let first = document.find(&begins)? + begins.len();
    let last = first + document[first..].find(&ends)?;
    Some((
        &document[..first],
        &document[first..last],
        &document[last..],
    ))
}

/// A crate's main file.
fn top(one: &Crate) -> &'static str {
    if one.is_library() {
        "src/lib.rt"
    } else {
        "src/main.rt"
    }
}

fn listed(crates: &[Crate], faults: &mut Vec<String>) -> String {
    let mut text = String::new();
    for one in crates {
        let says = said(one, one.head(top(one)), top(one), faults);
        let stands_on: Vec<String> = stands_on(crates, one)
            .iter()
            .map(|name| format!("`{name}`"))
            .collect();
        let stands_on = match stands_on.join(", ") {
            names if names.is_empty() => String::new(),
            names => format!(" On {names}."),
        };
        let kind = match one.is_library() {
            false => " (program)",
            true if one.is_for_c => " (static library)",
            true => "",
        };
        text.push_str(&wrap(
            "- ",
            &format!("**{}**{kind}: {says}{stands_on}", one.name),
        ));
    }
    text
}

/// The crates that one stands on, but for those that another of them stands on.
fn stands_on(crates: &[Crate], one: &Crate) -> Vec<String> {
    let ours = |name: &&String| crates.iter().any(|other| other.name == **name);
    let is_below = |name: &&String| {
        let mut above = crates.iter().filter(|other| one.uses.contains(&other.name));
        !above.any(|other| other.uses.contains(*name))
    };
    one.uses
        .iter()
        .filter(ours)
        .filter(is_below)
        .cloned()
        .collect()
}

fn filed(crates: &[Crate], faults: &mut Vec<String>) -> String {
    let told: Vec<String> = crates.iter().map(|one| files_of(one, faults)).collect();
    told.join("\n")
}

/// The files of a crate, module by module.
fn files_of(one: &Crate, faults: &mut Vec<String>) -> String {
    let mut modules: BTreeMap<String, Vec<File>> = BTreeMap::new();
    for folder in ["src", "specs", "proofs"] {
        for file in one.files(folder).into_iter().filter(|file| !file.is_list()) {
            modules.entry(file.place()).or_default().push(file);
        }
    }
    let mut text = format!("### {}\n", one.name);
    for (module, files) in &modules {
        if !module.is_empty() {
            let head = format!("src/{}.rt", module.replace("::", "/"));
            let says = said(one, one.head(&head), &head, faults);
            text.push_str(&format!("\n{}", wrap("", &format!("`{module}`: {says}"))));
        }
        text.push('\n');
        for file in files {
            let says = said(one, file.says(), &file.path, faults);
            text.push_str(&wrap("- ", &format!("{}: {says}", file.path)));
        }
    }
    text
}

/// What a file says of itself, which each does.
fn said(one: &Crate, says: Option<String>, path: &str, faults: &mut Vec<String>) -> String {
    says.unwrap_or_else(|| {
        faults.push(format!("{}: {path} doesn't say what it is", one.name));
        String::new()
    })
}
