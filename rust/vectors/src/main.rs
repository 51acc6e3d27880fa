//! Writes the list of the program `vectors`, from the Rust and the paper: `stdin` holds the questions
//! and `stdout` the answers. With `--check` it only compares. With `--take-frames` and a folder of
//! traced sequences it writes `real/frames.bin`, from which the list has its real frames. With
//! `--captures` and a folder of real captures it replays them, and compares with what a traced decoder
//! left.

mod capture;
mod damage;
mod files;
mod find;
mod frame;
mod job;
mod leaf;
mod limits;
mod list;
mod load;
mod question;
mod real;
mod record;
mod row;
mod save;
mod splat;

use list::List;
use shared::sequences;
use shared::split_mix;
use std::env;
use std::path::Path;
use std::process::ExitCode;

fn main() -> ExitCode {
    let args: Vec<String> = env::args().skip(1).collect();
    let args: Vec<&str> = args.iter().map(String::as_str).collect();
    let done = match args.as_slice() {
        [] => for_each_file(files::write),
        ["--check"] => for_each_file(files::check),
        ["--take-frames", folder] => real::take(Path::new(folder)),
        ["--captures", folder] => capture::real::check(Path::new(folder)),
        _ => Err("usage: vectors [--check | --take-frames DIR | --captures DIR]".to_string()),
    };
    match done {
        Ok(()) => ExitCode::SUCCESS,
        Err(message) => {
            eprintln!("{message}");
            ExitCode::FAILURE
        }
    }
}

/// The files of the two programs: the list's, and `replay` on document 01's worked example.
fn for_each_file(act: impl Fn(&Path, &[u8]) -> Result<(), String>) -> Result<(), String> {
    let list = list()?;
    let [capture, output] = capture::worked_example();
    for (name, bytes) in [
        ("crates/vectors/stdin", list.questions.as_bytes()),
        ("crates/vectors/stdout", list.answers.as_bytes()),
        ("crates/replay/stdin", &capture),
        ("crates/replay/stdout", &output),
    ] {
        act(Path::new(name), bytes)?;
    }
    println!("{}", list.summary());
    Ok(())
}

fn list() -> Result<List, String> {
    let mut list = List::new();
    for put in [
        leaf::put,
        frame::put,
        row::put,
        splat::put,
        save::put,
        load::put,
        job::put,
        find::put,
        capture::put,
    ] {
        put(&mut list)?;
    }
    Ok(list)
}
