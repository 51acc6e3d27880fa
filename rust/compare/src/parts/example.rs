//! The C example: it compiles without a warning against the library, and finds what it expects.

use crate::options::Options;
use crate::tally::Tally;
use std::fs;
use std::path::Path;
use std::process::Command;

const ROOT: &str = concat!(env!("CARGO_MANIFEST_DIR"), "/../..");

const PROGRAM: &str = "target/examples/first_frame";

pub fn compare(_: &Options) -> Result<Tally, String> {
    let folder = Path::new(ROOT).join("target/examples");
    fs::create_dir_all(&folder).map_err(|error| format!("{}: {error}", folder.display()))?;
    let mut tally = Tally::default();
    tally.count_accepted(1);
    let program = Path::new(ROOT).join(PROGRAM);
    let steps = [compiler(), Command::new(program)];
    if let Some(why) = steps.into_iter().find_map(|step| run(step).err()) {
        tally.differ(0, || why);
    }
    Ok(tally)
}

fn compiler() -> Command {
    let mut gcc = Command::new("gcc");
    gcc.args(["-std=c11", "-Wall", "-Wextra", "-Werror", "-Iinclude"]);
    gcc.args(["examples/first_frame.c", "target/staticlib/libjaskkovir.a"]);
    gcc.args(["-o", PROGRAM]);
    gcc
}

/// Runs a command in the repository's root, and tells what it says where it fails.
fn run(mut command: Command) -> Result<(), String> {
    let output = command.current_dir(ROOT).output();
    let told = |why: String| format!("{:?}: {why}", command.get_program());
    let output = output.map_err(|error| told(error.to_string()))?;
    if output.status.success() {
        return Ok(());
    }
    Err(told(String::from_utf8_lossy(&output.stderr).into_owned()))
}
