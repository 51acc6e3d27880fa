//! The list of the program `vectors`, replayed on the library: what a call answers and changes has to be as
//! the list has it. Batches whose steps are to be taken in many orders are tried here.

mod calls;
mod orders;

use crate::options::Options;
use crate::tally::Tally;
use calls::Called;
use shared::desk::changes;
use shared::desk::Desk;
use std::fs;

const QUESTIONS: &str = concat!(env!("CARGO_MANIFEST_DIR"), "/../../crates/vectors/stdin");

const ANSWERS: &str = concat!(env!("CARGO_MANIFEST_DIR"), "/../../crates/vectors/stdout");

/// The commands of the list that aren't calls of the library.
const STEPS: usize = 20;
const ORDERS: usize = 21;
const INNER: std::ops::RangeInclusive<usize> = 30..=35;

pub fn compare(_: &Options) -> Result<Tally, String> {
    let read = |path| fs::read_to_string(path).map_err(|error| format!("{path}: {error}"));
    let (questions, answers) = (read(QUESTIONS)?, read(ANSWERS)?);
    let mut answers = told_together(&answers).into_iter();
    let mut desk = Desk::default();
    let (mut tally, mut lists) = (Tally::default(), 0);
    for (at, line) in questions.lines().enumerate() {
        let numbers: Vec<usize> = line.split(' ').map_while(number).collect();
        let seen = match numbers.first() {
            None | Some(1..=3) => {
                desk.obey(&numbers);
                continue;
            }
            Some(function) if INNER.contains(function) => {
                answers.next();
                continue;
            }
            Some(&ORDERS) => orders::try_all(&desk, &numbers[1..]).map(|tried| lists += tried),
            Some(_) => held_to(answers.next(), &replay(&mut desk, &numbers)),
        };
        tally.count_accepted(1);
        if let Err(why) = seen {
            tally.differ(at as u64, || format!("line {}, {line}: {why}", at + 1));
        }
    }
    tally.note = format!("{lists} lists of steps");
    Ok(tally)
}

/// A negative number stands for itself modulo 2^64.
fn number(word: &str) -> Option<usize> {
    word.parse::<i64>().ok().map(|number| number as usize)
}

/// What each command printed: a line, and those behind it that start with a blank.
fn told_together(answers: &str) -> Vec<String> {
    let mut told: Vec<String> = Vec::new();
    for line in answers.split_inclusive('\n') {
        match told.last_mut() {
            Some(last) if line.starts_with(' ') => last.push_str(line),
            _ => told.push(line.to_string()),
        }
    }
    told
}

fn held_to(wanted: Option<String>, ours: &str) -> Result<(), String> {
    match wanted {
        Some(wanted) if wanted == ours => Ok(()),
        wanted => Err(format!("ours {ours:?}, the list's {wanted:?}")),
    }
}

/// Makes the call, and gives what the program prints of it. Steps leave the desk as it is.
fn replay(desk: &mut Desk, numbers: &[usize]) -> String {
    let Called { answers, after } = calls::call(desk, numbers);
    let answers: Vec<String> = answers.iter().map(u8::to_string).collect();
    let mut told = format!("{} {}\n", numbers[0], answers.join(" "));
    for (role, bytes) in after {
        told += &changes(role, desk.part(role), &bytes);
        if numbers[0] != STEPS {
            desk.keep(role, &bytes);
        }
    }
    told
}
