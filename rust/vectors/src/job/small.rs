//! Three jobs of three steps each, of which every order is tried.

use crate::job::load;
use crate::job::question::JobQuestion;
use crate::job::save;
use crate::load::edges::cell;
use crate::load::edges::window;
use crate::question::FrameQuestion;
use crate::save::block;
use crate::split_mix::SplitMix64;
use oracle::leaves::Vector;
use oracle::paper::Job;
use shared::orders::Task;

pub fn questions(random: &mut SplitMix64) -> Vec<JobQuestion> {
    let two_tiles = two_references().with(|frame| {
        frame.description.tile_rows = 2;
        frame.description.tile_threads = 2;
    });
    vec![
        of(two_references(), loads_and_save(), random),
        of(two_tiles, loads(), random),
        of(no_reference(), saves_and_load(), random),
    ]
}

/// 16 columns and 8 rows. References 0 and 4 are used, so a load of one row has three steps.
fn two_references() -> FrameQuestion {
    FrameQuestion::sized(128, 64, [1; 3]).with(|frame| {
        frame.present = [1, 0, 0, 0, 1, 0, 0];
    })
}

/// The same without a reference: a load of three rows has three steps.
fn no_reference() -> FrameQuestion {
    two_references().with(|frame| frame.description.temporal = 0)
}

fn loads_and_save() -> Vec<Job> {
    vec![
        load(window([0, 8], [1, 2])),
        load(window([8, 16], [1, 2])),
        save(window([2, 16], [2, 5])),
    ]
}

/// Neighbours in a row, and the same cells of another tile row.
fn loads() -> Vec<Job> {
    let mut jobs = vec![
        load(window([0, 7], [3, 4])),
        load(window([7, 16], [3, 4])),
        load(window([0, 16], [3, 4])),
    ];
    jobs[2].window.tile_row = 1;
    jobs
}

fn saves_and_load() -> Vec<Job> {
    vec![
        save(window([0, 8], [0, 3])),
        save(window([0, 8], [3, 6])),
        load(window([3, 12], [0, 3])),
    ]
}

/// Every cell and record that may be read is another.
fn of(frame: FrameQuestion, jobs: Vec<Job>, random: &mut SplitMix64) -> JobQuestion {
    let mut question = JobQuestion::new(frame, jobs, Task::Every);
    for (at, job) in question.jobs.clone().iter().enumerate() {
        let window = job.window;
        for y in window.row_start..window.row_end {
            for x in window.col_start..window.col_end {
                put(&mut question, at, [y, x], random);
            }
        }
    }
    question
}

fn put(question: &mut JobQuestion, job: usize, place: [u32; 2], random: &mut SplitMix64) {
    if question.jobs[job].kind == 1 {
        // None is wider than what is left of a window whose columns end at a multiple of eight.
        let widest = if place[1] % 8 < 7 { 2 } else { 1 };
        question.put_read(job, place, block::any(random, widest));
        return;
    }
    for field in [0, 4] {
        question.put(field, place, 1, near(random));
    }
}

/// A cell that stays in its row and may land in another job's columns, from one of the references
/// that both fields have behind them.
fn near(random: &mut SplitMix64) -> [u8; 5] {
    let mv = Vector {
        y: random.component(60),
        x: random.component(900),
    };
    cell(mv, random.within(1, 4) as i8)
}
