//! docs/MAP.md: every function of refmvs.rs is on it, at its line, and every file and name that it leads to is
//! there.

use house::declares;
use house::read;
use house::root;

/// What is told of, and fails the test where there is any.
fn none(faults: Vec<String>) {
    assert!(faults.is_empty(), "\n{}", faults.join("\n"));
}

/// The items of the map's lists, each in one line.
fn items() -> Vec<String> {
    let mut items: Vec<String> = Vec::new();
    for line in read(&root().join("docs/MAP.md")).lines() {
        let rest = line.trim_start();
        match items.last_mut() {
            Some(last) if rest.len() < line.len() && !rest.starts_with("- ") => {
                last.push(' ');
                last.push_str(rest);
            }
            _ => items.push(rest.into()),
        }
    }
    items.retain(|item| item.starts_with("- "));
    items
}

/// What stands between two backticks.
fn code(text: &str) -> impl Iterator<Item = &str> {
    text.split('`').skip(1).step_by(2)
}

/// What the map has in bold, with the line of refmvs.rs behind it where it gives one.
fn marks() -> Vec<(String, Option<usize>)> {
    let mark = |rest: &str| {
        let (name, after) = rest.split_once("`**")?;
        let line = after
            .strip_prefix(" (")
            .and_then(|after| after.split(')').next());
        Some((name.to_string(), line.and_then(|line| line.parse().ok())))
    };
    let marks = |item: &String| {
        item.split("**`")
            .skip(1)
            .filter_map(mark)
            .collect::<Vec<_>>()
    };
    items().iter().flat_map(marks).collect()
}

/// The functions that a line of Rust names behind `fn`.
fn named(line: &str) -> impl Iterator<Item = &str> {
    line.split("fn ").skip(1).filter_map(|rest| {
        let end = rest.find(|c: char| !c.is_alphanumeric() && c != '_')?;
        let is_name = end > 0 && rest[end..].starts_with(['(', '<', ')']);
        is_name.then_some(&rest[..end])
    })
}

#[test]
fn every_function_of_refmvs_is_on_the_map() {
    let source = read(&root().join("docs/src/src/refmvs.rs"));
    let marks = marks();
    let mut faults = Vec::new();
    let mut functions = 0;
    for (i, line) in source.lines().enumerate() {
        for name in named(line) {
            functions += 1;
            let is_here = |(mark, at): &&(String, Option<usize>)| {
                mark == name && at.is_none_or(|at| at == i + 1)
            };
            if marks.iter().find(is_here).is_none() {
                faults.push(format!("MAP: {name} of line {} isn't there", i + 1));
            }
        }
    }
    assert!(
        functions > 40,
        "refmvs.rs has more than {functions} functions"
    );
    none(faults);
}

#[test]
fn every_line_number_is_right() {
    let source = read(&root().join("docs/src/src/refmvs.rs"));
    let lines: Vec<&str> = source.lines().collect();
    let is_wrong = |(mark, line): &(String, Option<usize>)| {
        line.is_some_and(|line| {
            !lines
                .get(line - 1)
                .is_some_and(|text| text.contains(&**mark))
        })
    };
    let told =
        |(mark, line): (String, Option<usize>)| format!("MAP: {mark} isn't in line {line:?}");
    none(marks().into_iter().filter(is_wrong).map(told).collect());
}

#[test]
fn everything_on_the_map_is_there() {
    let mut faults = Vec::new();
    let mut names = 0;
    for item in items() {
        let Some(places) = ["- definition: ", "- ours: "]
            .iter()
            .find_map(|start| item.strip_prefix(start))
        else {
            continue;
        };
        for place in places.split("; ") {
            let Some((own, path)) = place.rsplit_once(" in ") else {
                faults.push(format!("MAP: {place} has no place"));
                continue;
            };
            let file = root().join("crates").join(path);
            if !file.is_file() {
                faults.push(format!("MAP: {path} is nowhere"));
                continue;
            }
            let text = read(&file);
            for name in code(own) {
                names += 1;
                if !text.lines().any(|line| declares(line, name)) {
                    faults.push(format!("MAP: {name} isn't in {path}"));
                }
            }
        }
    }
    assert!(names > 200, "the map has more than {names} names");
    none(faults);
}
