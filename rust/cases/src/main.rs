//! The paper's candidate search beside the Rust's, on real searches or on random ones.

use cases::found;
use cases::random;
use std::env;
use std::path::Path;
use std::process::ExitCode;

const USAGE: &str = "usage: cases --finds DIR | --searches N [SEED]";

fn main() -> ExitCode {
    let args: Vec<String> = env::args().skip(1).collect();
    let args: Vec<&str> = args.iter().map(String::as_str).collect();
    let done = match args.as_slice() {
        ["--finds", folder] => real(Path::new(folder)),
        ["--searches", count] => searches(count, "1"),
        ["--searches", count, seed] => searches(count, seed),
        _ => Err(USAGE.to_string()),
    };
    match done {
        Ok(()) => ExitCode::SUCCESS,
        Err(message) => {
            eprintln!("{message}");
            ExitCode::FAILURE
        }
    }
}

fn real(folder: &Path) -> Result<(), String> {
    let count = found::check(folder)?;
    println!("{count} real searches, answers and reads as traced");
    Ok(())
}

fn searches(count: &str, seed: &str) -> Result<(), String> {
    let number = |text: &str| text.parse().map_err(|error| format!("{text}: {error}"));
    let seen = random::run(number(seed)?, number(count)? as usize)?;
    println!("{seen}");
    match seen.differences.first() {
        None => Ok(()),
        Some(first) => Err(first.clone()),
    }
}
