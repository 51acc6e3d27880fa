//! Capture files, with what playing them leaves.

mod accepted;
mod made;
mod malformed;
pub mod real;
mod refused;
mod saving;

use crate::list::Answer;
use crate::list::Case;
use crate::list::Function;
use crate::list::List;
use crate::list::Question;
use crate::list::SEED;
use crate::split_mix::SplitMix64;
use oracle::replay::play;
use shared::captures::file;
use shared::captures::worked;
use shared::captures::WORKED_OUTPUT;
use shared::desk::lent;
use shared::desk::Role;

/// As much as a capture's frame may need: a projection of 4 tile rows, each 16 rows of 32 cells, and a
/// saved field of 32 rows.
const PROJECTION_LEN: usize = 5 * 4 * 16 * 32;
const SAVED_LEN: usize = 5 * 32 * 32;

/// The steps of eight jobs, four bytes each.
const STEPS: usize = 8;

/// A file.
struct CaptureQuestion(Vec<u8>);

/// What a file's jobs leave.
struct Played {
    steps: Vec<u32>,
    projection: Vec<u8>,
    saved: Vec<u8>,
}

pub fn put(list: &mut List) -> Result<(), String> {
    list.put_all("captures", &questions()?)
}

/// Document 01's worked example: a file, and what `replay` prints of it.
pub fn worked_example() -> [Vec<u8>; 2] {
    [file(&worked()), WORKED_OUTPUT.as_bytes().to_vec()]
}

fn questions() -> Result<Vec<CaptureQuestion>, String> {
    let mut random = SplitMix64::new(SEED);
    let files = [
        accepted::files(&mut random),
        malformed::files(),
        refused::files(),
        real::small()?,
    ];
    Ok(files.into_iter().flatten().map(CaptureQuestion).collect())
}

impl CaptureQuestion {
    /// What the Rust leaves, or the paper's refusal.
    fn played(&self) -> Result<Played, u8> {
        let [mut projection, mut saved] = [PROJECTION_LEN, SAVED_LEN].map(lent);
        let mut steps = play(&self.0, &mut projection, &mut saved)?;
        steps.resize(STEPS, 0);
        Ok(Played {
            steps,
            projection,
            saved,
        })
    }
}

impl Case for CaptureQuestion {
    fn put(&self, list: &mut List) -> Result<(), String> {
        let question = Question::new(Function::Play, [0; 0])
            .lending(Role::FILE, self.0.as_slice())
            .lending(Role::PROJECTION, lent(PROJECTION_LEN))
            .lending(Role::SAVED, lent(SAVED_LEN))
            .lending(Role::STEPS, lent(4 * STEPS));
        let answer = match self.played() {
            Ok(played) => {
                let steps = played.steps.into_iter().flat_map(u32::to_le_bytes);
                Answer::of(0)
                    .leaving(Role::STEPS, steps.collect::<Vec<u8>>())
                    .leaving(Role::PROJECTION, played.projection)
                    .leaving(Role::SAVED, played.saved)
            }
            Err(refusal) => Answer::of(refusal),
        };
        list.put(question, answer);
        Ok(())
    }
}

#[cfg(test)]
mod tests {
    use super::*;
    use oracle::replay::replay;
    use oracle::replay::text;
    use std::collections::HashSet;

    /// Setup selects only references whose fields are lent, so that 5 isn't among them; 10 is no
    /// number of a load or a save.
    #[test]
    fn each_refusal_of_a_file_is_given() {
        let questions = questions().unwrap();
        let answers = questions.iter().map(|question| question.played().err());
        let given: HashSet<u8> = answers.map(Option::unwrap_or_default).collect();
        let numbers = [0, 1, 2, 3, 4, 6, 7, 8, 9, 11, 12, 13];
        assert_eq!(given, numbers.into());
    }

    #[test]
    fn files_are_accepted_or_refused_as_they_are_sorted() {
        let refused = |file: &Vec<u8>| text(&replay(file)).starts_with("refused");
        let mut random = SplitMix64::new(SEED);
        assert!(!accepted::files(&mut random).iter().any(refused));
        assert!(malformed::files().iter().all(refused));
        assert!(refused::files().iter().all(refused));
    }
}
