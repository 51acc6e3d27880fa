//! Batches of jobs.

pub mod bytes;
mod meeting;
mod put;
mod question;
mod refused;
mod small;
mod streams;

use crate::job::question::JobQuestion;
use crate::list::List;
use crate::list::SEED;
use crate::split_mix::SplitMix64;
use oracle::paper::Job;
use oracle::Window;

/// How many jobs a batch may have.
const PLACES: usize = 8;

pub fn put(list: &mut List) -> Result<(), String> {
    list.put_all("batches", &questions()?)
}

fn questions() -> Result<Vec<JobQuestion>, String> {
    let mut random = SplitMix64::new(SEED);
    Ok([
        refused::questions(),
        meeting::questions(),
        small::questions(&mut random),
        streams::questions()?,
    ]
    .concat())
}

/// A load that isn't stepped yet.
pub fn load(window: Window) -> Job {
    Job {
        kind: 0,
        window,
        superblock_row: 0,
        pass: 1,
        done: 0,
    }
}

/// A save that isn't stepped yet, from the first superblock row.
pub fn save(window: Window) -> Job {
    Job {
        kind: 1,
        ..load(window)
    }
}

#[cfg(test)]
mod tests {
    use super::*;
    use shared::orders::Task;
    use std::collections::HashSet;

    fn refusal(question: &JobQuestion) -> u8 {
        question.refusal().unwrap()
    }

    #[test]
    fn each_refusal_of_a_batch_is_given() {
        let given: HashSet<u8> = questions().unwrap().iter().map(refusal).collect();
        let numbers = [0, 1, 3, 4, 5, 6, 7, 8, 9, 11, 12];
        assert_eq!(given, HashSet::from(numbers));
    }

    #[test]
    fn orders_are_tried_of_accepted_batches_alone() {
        for question in questions().unwrap() {
            if let Task::Every | Task::Drawn { .. } = question.task {
                assert_eq!(refusal(&question), 0);
            }
        }
    }

    #[test]
    fn orders_matter_only_where_windows_share_a_cell() {
        let mut kinds = HashSet::new();
        for question in meeting::questions() {
            let forwards = question.run(&question.jobs).unwrap();
            let backwards = question.run(question.jobs.iter().rev()).unwrap();
            kinds.insert((refusal(&question), forwards != backwards));
        }
        assert_eq!(kinds, HashSet::from([(0, false), (11, false), (11, true)]));
    }

    /// The steps of each job of a batch.
    fn counts(question: &JobQuestion) -> Vec<u32> {
        question.counts().unwrap()
    }

    #[test]
    fn small_batches_have_three_jobs_of_three_steps() {
        for question in small::questions(&mut SplitMix64::new(SEED)) {
            assert_eq!(counts(&question), [3, 3, 3]);
        }
    }

    #[test]
    fn batches_of_streams_load_and_save_motion() {
        for question in streams::questions().unwrap() {
            assert_eq!(counts(&question).len(), PLACES);
            let lent = question.lent();
            let after = question.run(&question.jobs).unwrap();
            assert!(after.projection != lent.projection && after.saved != lent.saved);
            // A landed cell, and a saved one with a reference.
            let landed = |bytes: &[u8]| {
                bytes
                    .as_chunks::<5>()
                    .0
                    .iter()
                    .any(|it| it[4] < 128 && it[4] > 0)
            };
            assert!(landed(&after.projection) && landed(&after.saved));
        }
    }
}
