//! The steps of a batch in many orders, each with the batch as it lies on the desk and the parts that it
//! writes as they are lent. On the desk these parts are as the jobs leave them that are run whole.

use crate::parts::list::calls::sources;
use jaskkovir::jobs;
use jaskkovir::jobs::Sources;
use jaskkovir::jobs::DONE;
use shared::desk::lent;
use shared::desk::Desk;
use shared::desk::Role;
use shared::orders::Task;
use std::collections::HashMap;

/// What a list of steps leaves.
#[derive(Clone, PartialEq, Eq)]
struct Left {
    jobs: Vec<u8>,
    projection: Vec<u8>,
    saved: Vec<u8>,
}

/// The line has the seed, how many lists are drawn (0 for every list of nine steps), how many jobs there are,
/// and how many lists finish every job. How many lists were tried.
pub fn try_all(desk: &Desk, numbers: &[usize]) -> Result<usize, String> {
    let &[seed, drawn, jobs, finishing] = numbers else {
        return Err("four numbers are wanted".to_string());
    };
    let task = match drawn {
        0 => Task::Every,
        _ => Task::Drawn {
            seed: seed as u32,
            lists: drawn as u32,
        },
    };
    let lists = task.lists();
    let mut ordered = HashMap::new();
    let mut finished = 0;
    for list in &lists {
        let told = |why: &str| format!("steps {list:?} {why}");
        let left = run(desk, list);
        let by_job = sorted(list, jobs);
        let wanted = ordered
            .entry(by_job)
            .or_insert_with_key(|by_job| run(desk, by_job));
        if left != *wanted {
            return Err(told(
                "leave something else than the same in the order of the jobs",
            ));
        }
        if is_finished(&sources(desk), jobs, left.clone()) {
            finished += 1;
            if !is_whole(desk, &left) {
                return Err(told("leave something else than the jobs run whole"));
            }
        }
    }
    if finished != finishing {
        return Err(format!("{finished} lists finish every job"));
    }
    Ok(lists.len())
}

/// The steps that name a job, in the order of the jobs.
fn sorted(list: &[u8], jobs: usize) -> Vec<u8> {
    let named = list.iter().copied().filter(|&k| usize::from(k) < jobs);
    let mut named: Vec<u8> = named.collect();
    named.sort();
    named
}

fn run(desk: &Desk, list: &[u8]) -> Left {
    let mut left = Left {
        jobs: desk.part(Role::JOBS).to_vec(),
        projection: lent(desk.part(Role::PROJECTION).len()),
        saved: lent(desk.part(Role::SAVED).len()),
    };
    let sources = sources(desk);
    for &k in list {
        left.step(&sources, k.into());
    }
    left
}

fn is_finished(sources: &Sources, jobs: usize, mut left: Left) -> bool {
    (0..jobs).all(|k| left.step(sources, k) == DONE)
}

fn is_whole(desk: &Desk, left: &Left) -> bool {
    left.projection == desk.part(Role::PROJECTION) && left.saved == desk.part(Role::SAVED)
}

impl Left {
    fn step(&mut self, sources: &Sources, k: usize) -> u8 {
        let Self {
            jobs,
            projection,
            saved,
        } = self;
        jobs::step(sources, jobs, k, projection, saved)
    }
}
