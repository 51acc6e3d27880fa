//! What is asked of every crate: wrong programs that apply, each for itself; functions and lines that can be
//! read; and one place where positions in units of 4 and of 8 samples are crossed.

use house::all;
use house::broken_by;
use house::libraries;
use house::Crate;
use house::Wrong;

/// What is told of, and fails the test where there is any.
fn none(faults: Vec<String>) {
    assert!(faults.is_empty(), "\n{}", faults.join("\n"));
}

#[test]
fn every_wrong_program_applies() {
    let mut faults = Vec::new();
    for library in libraries() {
        for one in library.wrong() {
            if one.places != 1 || !one.changes {
                let (name, places) = (one.name, one.places);
                faults.push(format!(
                    "{}: {name} applies at {places} places",
                    library.name
                ));
            }
            if one.function.is_none() && one.definition.is_none() {
                faults.push(format!(
                    "{}: {} changes no function",
                    library.name, one.edit
                ));
            }
        }
    }
    none(faults);
}

#[test]
fn wrong_programs_are_named_and_told_apart() {
    let mut faults = Vec::new();
    for library in libraries() {
        let wrong = library.wrong();
        for (i, one) in wrong.iter().enumerate() {
            let (name, library) = (&one.name, &library.name);
            if one.words.is_empty() {
                faults.push(format!("{library}: {name} has no words"));
            }
            if wrong[..i].iter().any(|other| other.name == *name) {
                faults.push(format!("{library}: {name} comes twice"));
            }
        }
    }
    none(faults);
}

/// Of one edit each wrong program is of another function, and of the definitions one at most is changed.
#[test]
fn wrong_programs_of_one_edit_are_of_different_functions() {
    let mut faults = Vec::new();
    for library in libraries() {
        let wrong = library.wrong();
        for (i, one) in wrong.iter().enumerate() {
            let beside = |other: &&Wrong| other.edit == one.edit;
            if wrong[..i]
                .iter()
                .filter(beside)
                .any(|other| other.function == one.function)
            {
                faults.push(format!("{}: {} isn't alone", library.name, one.name));
            }
        }
    }
    none(faults);
}

/// What a changed definition breaks has no wrong program in the same edit: it would be refused for the
/// definition, and show nothing of itself.
#[test]
fn a_wrong_definition_breaks_nothing_beside_it() {
    let mut faults = Vec::new();
    for library in libraries() {
        let wrong = library.wrong();
        for definition in wrong.iter().filter(|one| one.function.is_none()) {
            let beside: Vec<&Wrong> = wrong
                .iter()
                .filter(|one| one.edit == definition.edit && one.function.is_some())
                .collect();
            faults.extend(broken_beside(&library, definition, &beside));
        }
    }
    none(faults);
}

fn broken_beside(library: &Crate, definition: &Wrong, beside: &[&Wrong]) -> Vec<String> {
    if beside.is_empty() {
        return Vec::new();
    }
    let functions = library.functions();
    let name = definition.definition.as_deref().unwrap_or_default();
    let broken = broken_by(library, name, &functions);
    let is_broken = |one: &&&Wrong| {
        broken
            .iter()
            .any(|function| one.function.as_ref() == Some(&function.path))
    };
    let told = |one: &&Wrong| {
        let (name, one) = (&definition.name, &one.name);
        format!(
            "{}: {one} stands beside {name}, which may break it",
            library.name
        )
    };
    beside.iter().filter(is_broken).map(told).collect()
}

/// What is exported to C hands on to a function of that name, and promises and requires what that one does.
#[test]
fn what_c_calls_has_the_clauses_of_what_does_the_work() {
    let mut faults = Vec::new();
    let (for_c, others): (Vec<Crate>, Vec<Crate>) = libraries()
        .into_iter()
        .partition(|library| library.is_for_c);
    let does_the_work: Vec<_> = others.iter().flat_map(Crate::functions).collect();
    for function in for_c.iter().flat_map(Crate::functions) {
        let is_same = |other: &&house::Function| {
            other.path == function.path
                && other.requires == function.requires
                && other.ensures == function.ensures
                && other.result == function.result
        };
        if !does_the_work.iter().any(|other| is_same(&other)) {
            faults.push(format!("{} promises something else", function.path));
        }
    }
    none(faults);
}

#[test]
fn no_function_is_long() {
    let mut faults = Vec::new();
    for one in all() {
        for function in one
            .functions()
            .iter()
            .filter(|function| function.lines() >= 40)
        {
            faults.push(format!(
                "{}: {} has {} lines",
                one.name,
                function.path,
                function.lines()
            ));
        }
    }
    none(faults);
}

/// The widest line of code with its contracts, and of definitions. What a file imports stands in one line.
const WIDEST: usize = 160;

#[test]
fn no_contract_has_a_wide_line() {
    let mut faults = Vec::new();
    for one in all() {
        for file in ["src", "specs"].iter().flat_map(|folder| one.files(folder)) {
            for (i, line) in file.text.lines().enumerate() {
                let width = line.chars().count();
                let is_import = line.starts_with("use ") || line.starts_with("ghost use ");
                if width > WIDEST && !is_import {
                    faults.push(format!(
                        "crates/{}/{}:{}: {width} characters",
                        one.name,
                        file.path,
                        i + 1
                    ));
                }
            }
        }
    }
    none(faults);
}

/// Where positions and lengths may be halved and doubled.
const POSITIONS: (&str, &str) = ("cells", "src/pos.rt");

/// What is done to the number inside a position where it is taken to the other unit by hand.
const CROSSINGS: [&str; 5] = [".0 / 2", ".0 % 2", ".0 * 2", ".0 >> 1", ".0 << 1"];

/// The same with the factor first.
const DOUBLINGS: [&str; 1] = ["2 * "];

fn is_crossing(line: &str) -> bool {
    let is_number = |c: char| c.is_alphanumeric() || "_.«»".contains(c);
    let doubles = |start: &str| {
        line.match_indices(start).any(|(at, _)| {
            let rest = &line[at + start.len()..];
            let path: &str = rest.split(|c| !is_number(c)).next().unwrap_or_default();
            path.ends_with(".0") && !line[..at].ends_with(is_number)
        })
    };
    CROSSINGS.iter().any(|crossing| line.contains(crossing))
        || DOUBLINGS.iter().any(|start| doubles(start))
}

#[test]
fn units_are_crossed_in_one_file() {
    let mut faults = Vec::new();
    for one in all() {
        for file in one
            .files("src")
            .iter()
            .filter(|file| (&*one.name, &*file.path) != POSITIONS)
        {
            for function in house::functions_of(file) {
                for line in function.body.lines().filter(|line| is_crossing(line)) {
                    faults.push(format!(
                        "crates/{}/{}: {}",
                        one.name,
                        file.path,
                        line.trim()
                    ));
                }
            }
        }
    }
    none(faults);
}

#[test]
fn crossings_are_told() {
    for line in [
        "b.x.0 / 2",
        "self.end.0 % 2 == 1",
        "2 * s.stride.0",
        "put(2 * a.0)",
        "w.0 << 1",
    ] {
        assert!(is_crossing(line), "{line}");
    }
    for line in [
        "2 * len",
        "b.x.halved()",
        "12 * s.0",
        "mf % 2 == 1",
        "2 * s.n_blocks",
    ] {
        assert!(!is_crossing(line), "{line}");
    }
}
