//! Each wrong program is refused for a fact of its own: the prover is asked of every edit, on copies of the crates.
//! With names of crates, of the edits of these alone.

use house::build;
use house::libraries;
use house::tried;
use house::Copy;
use house::Crate;
use house::Wrong;
use std::env;
use std::process::ExitCode;
use std::sync::Mutex;
use std::thread;

fn main() -> ExitCode {
    let names: Vec<String> = env::args().skip(1).collect();
    let mut libraries = libraries();
    let is_known = |name: &&String| libraries.iter().any(|library| library.name == **name);
    if let Some(name) = names.iter().find(|name| !is_known(name)) {
        eprintln!("usage: refused [LIBRARY..], and {name} is none");
        return ExitCode::FAILURE;
    }
    libraries.retain(|library| names.is_empty() || names.contains(&library.name));
    let wrong: Vec<Vec<Wrong>> = libraries.iter().map(Crate::wrong).collect();
    let edits: Vec<(&Crate, Vec<&Wrong>)> =
        libraries.iter().zip(&wrong).flat_map(by_edit).collect();
    for library in &libraries {
        if let Err(log) = build(library) {
            println!("{log}\n{} isn't proved as it stands", library.name);
            return ExitCode::FAILURE;
        }
    }
    let faults = faults(edits);
    for fault in &faults {
        println!("{fault}");
    }
    println!(
        "{} wrong programs, {} not refused for a fact of their own",
        wrong.iter().map(Vec::len).sum::<usize>(),
        faults.len()
    );
    match faults.is_empty() {
        true => ExitCode::SUCCESS,
        false => ExitCode::FAILURE,
    }
}

fn by_edit<'a>((library, wrong): (&'a Crate, &'a Vec<Wrong>)) -> Vec<(&'a Crate, Vec<&'a Wrong>)> {
    let edits = wrong.chunk_by(|one, other| one.edit == other.edit);
    edits.map(|edit| (library, edit.iter().collect())).collect()
}

/// Those of the wrong programs that aren't refused for themselves. There are as many copies at work as processors.
fn faults(mut edits: Vec<(&Crate, Vec<&Wrong>)>) -> Vec<String> {
    let workers = thread::available_parallelism()
        .map_or(1, usize::from)
        .min(edits.len());
    // The uppermost crates, whose checks are longest, come first.
    let (left, faults) = (Mutex::new(&mut edits), Mutex::new(Vec::new()));
    let work = |number| {
        let copy = Copy::new(number);
        loop {
            let next = left.lock().expect("no worker stops in between").pop();
            let Some((library, edit)) = next else {
                return;
            };
            let told = tried(&copy, library, &edit);
            let told = told
                .iter()
                .map(|one| format!("{}: {} is not refused for itself", library.name, one.name));
            faults
                .lock()
                .expect("no worker stops in between")
                .extend(told);
        }
    };
    thread::scope(|scope| {
        for number in 0..workers {
            scope.spawn(move || work(number));
        }
    });
    let mut faults = faults.into_inner().expect("no worker stops in between");
    faults.sort();
    faults
}
