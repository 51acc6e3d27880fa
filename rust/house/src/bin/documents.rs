//! Prints docs/CONTRACTS.md and the lists of docs/ARCHITECTURE.md from the crates. With `--check` it writes
//! nothing, and says where a document isn't what would be printed.

use house::architecture;
use house::contracts;
use house::read;
use house::root;
use std::env;
use std::fs;
use std::process::ExitCode;

fn main() -> ExitCode {
    let arguments: Vec<String> = env::args().skip(1).collect();
    let is_check = match arguments.iter().map(String::as_str).collect::<Vec<_>>()[..] {
        [] => false,
        ["--check"] => true,
        _ => {
            eprintln!("usage: documents [--check]");
            return ExitCode::FAILURE;
        }
    };
    let documents = root().join("docs");
    let printed = [
        ("CONTRACTS.md", contracts()),
        (
            "ARCHITECTURE.md",
            architecture(&read(&documents.join("ARCHITECTURE.md"))),
        ),
    ];
    let mut faults = Vec::new();
    for (name, printed) in printed {
        let path = documents.join(name);
        faults.extend(printed.faults);
        if is_check {
            faults.extend(difference(name, &read(&path), &printed.text));
        } else {
            fs::write(&path, printed.text).unwrap_or_else(|error| panic!("{name}: {error}"));
        }
    }
    for fault in &faults {
        println!("{fault}");
    }
    if faults.is_empty() {
        println!(
            "docs: {}",
            if is_check {
                "as the crates are"
            } else {
                "printed"
            }
        );
        ExitCode::SUCCESS
    } else {
        ExitCode::FAILURE
    }
}

/// The first line in which a document isn't what would be printed.
fn difference(name: &str, stands: &str, printed: &str) -> Option<String> {
    let (mut stands, mut printed) = (stands.lines(), printed.lines());
    for line in 1.. {
        match (stands.next(), printed.next()) {
            (None, None) => return None,
            (own, new) if own == new => {}
            (own, new) => {
                let show = |line: Option<&str>| line.unwrap_or("(its end)").to_string();
                return Some(format!(
                    "docs/{name}:{line}: isn't as the crates are; print it anew (cargo run -p house)\n  \
                     stands:  {}\n  printed: {}",
                    show(own),
                    show(new)
                ));
            }
        }
    }
    None
}
