//! Compares the port with the Rust, and its refusals with document 01, on seeded inputs and on real
//! streams. Prints a line for each part, and fails on any difference.

mod batches;
mod codec;
mod desk;
mod fields;
mod found;
mod frames;
mod names;
mod options;
mod parts;
mod stream;
mod stream_search;
mod stream_tmvs;
mod tables;
mod tally;
mod traced;
mod windows;

use options::Options;
use std::env;
use std::process::ExitCode;
use std::time::Instant;

fn main() -> ExitCode {
    let args: Vec<String> = env::args().skip(1).collect();
    match Options::read(&args).and_then(|options| run(&options)) {
        Ok(0) => ExitCode::SUCCESS,
        Ok(differences) => {
            eprintln!("{differences} differences");
            ExitCode::FAILURE
        }
        Err(message) => {
            eprintln!("{message}");
            ExitCode::FAILURE
        }
    }
}

/// Runs the parts that are asked for, and gives the number of differences.
fn run(options: &Options) -> Result<u64, String> {
    let mut differences = 0;
    for (name, part) in parts::all() {
        if options.wants(name) {
            let start = Instant::now();
            let tally = part(options)?;
            println!(
                "{name:<12} {tally} ({:.1} s)",
                start.elapsed().as_secs_f32()
            );
            tally.print_smallest();
            differences += tally.differences();
        }
    }
    Ok(differences)
}
