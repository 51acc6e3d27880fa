//! Times the port beside the Rust: one process, the same inputs, a frame of 1920 x 1080 with three
//! references. Prints a table.

mod frame;
mod inputs;
mod jobs;
mod load;
mod rows;
mod save;
mod search;
mod splat;
mod timing;

use std::env;
use std::hint::black_box;
use std::panic;
use timing::Timing;

type Part = (&'static str, fn() -> Vec<Timing>);

/// All of them, or those that are named as arguments.
const PARTS: [Part; 7] = [
    ("frame", || vec![frame::setup()]),
    ("row", || vec![rows::setup()]),
    ("splat", splat::all),
    ("load", load::all),
    ("save", save::all),
    ("batch", || vec![jobs::batch()]),
    ("search", search::all),
];

fn main() {
    println!(
        "1920 x 1080, three references, one thread; best rounds of {:?} each, by turns. Overflow \
         checks of the Rust: {}.\n",
        timing::SPAN,
        if overflow_is_checked() { "on" } else { "off" }
    );
    println!("| what | unit | ours, ns | the Rust, ns | ours / the Rust |");
    println!("|---|---|---|---|---|");
    let asked: Vec<String> = env::args().skip(1).collect();
    for (name, timings) in PARTS {
        if asked.is_empty() || asked.iter().any(|part| part == name) {
            for timing in timings() {
                println!("{timing}");
            }
        }
    }
}

/// All crates of a build have the same profile, so this one's checks are the oracle's too.
fn overflow_is_checked() -> bool {
    panic::set_hook(Box::new(|_| {}));
    let checked = panic::catch_unwind(|| black_box(i32::MAX) + black_box(1)).is_err();
    let _ = panic::take_hook();
    checked
}
