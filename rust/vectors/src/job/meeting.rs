//! Two jobs whose windows share a cell or only touch, stepped in both orders.

use crate::job::load;
use crate::job::question::JobQuestion;
use crate::job::save;
use crate::load::edges::cell_moved;
use crate::load::edges::frame;
use crate::load::edges::window;
use crate::question::FrameQuestion;
use crate::record;
use crate::save::block;
use oracle::leaves::Record;
use oracle::paper::Job;
use oracle::Window;
use shared::orders::Task;

pub fn questions() -> Vec<JobQuestion> {
    let mut questions = loads();
    questions.extend(tile_rows());
    questions.extend(saves());
    questions
}

/// Columns and rows.
type Bounds = ([u32; 2], [u32; 2]);

fn pair(make: fn(Window) -> Job, windows: [Bounds; 2]) -> Vec<Job> {
    windows
        .map(|(columns, rows)| make(window(columns, rows)))
        .to_vec()
}

/// Every cell of row 8 moves a row down, so that a window which starts in row 9 lacks what one gets
/// that starts above it.
fn loading(frame: FrameQuestion, jobs: Vec<Job>) -> JobQuestion {
    let mut question = JobQuestion::new(frame, jobs, Task::BothWays);
    question.put(0, [8, 0], 25, cell_moved(0, [64, 0]));
    // Row 12 moves two columns to the right.
    question.put(0, [12, 0], 25, cell_moved(0, [0, 128]));
    question
}

fn loads() -> Vec<JobQuestion> {
    let windows = [
        // One cell, in row 9 and column 4; and all but it.
        [([0, 5], [8, 10]), ([4, 9], [9, 11])],
        [([0, 4], [8, 10]), ([4, 9], [9, 11])],
        [([0, 5], [8, 9]), ([4, 9], [9, 11])],
        // Columns alone, which both take from the same sources.
        [([0, 9], [12, 13]), ([8, 16], [12, 13])],
        // Rows that are 16 apart, and that are 15 and 17.
        [([0, 5], [8, 10]), ([0, 5], [24, 26])],
        [([0, 5], [8, 9]), ([0, 5], [23, 24])],
        [([0, 5], [8, 9]), ([0, 5], [25, 26])],
        // One row of 16, and the one before it or behind it.
        [([0, 5], [8, 9]), ([0, 5], [9, 24])],
        [([0, 5], [8, 9]), ([0, 5], [9, 25])],
        // Windows without a cell share none.
        [([0, 5], [8, 10]), ([3, 3], [8, 10])],
        [([0, 5], [8, 10]), ([0, 5], [9, 9])],
        [([0, 5], [8, 10]), ([0, 5], [38, 54])],
    ];
    windows
        .map(|windows| loading(frame(0), pair(load, windows)))
        .to_vec()
}

/// The same cells for two tile rows: with one tile thread they have the same part, with more each
/// has its own.
fn tile_rows() -> Vec<JobQuestion> {
    [1, 2]
        .map(|threads| {
            let frame = frame(0).with(|frame| {
                frame.description.tile_rows = 2;
                frame.description.tile_threads = threads;
            });
            let mut jobs = pair(load, [([0, 5], [8, 10]), ([0, 5], [9, 11])]);
            jobs[1].window.tile_row = 1;
            loading(frame, jobs)
        })
        .to_vec()
}

/// In each row the block from column 2 covers column 3, where another record stands.
fn saving(jobs: Vec<Job>) -> JobQuestion {
    let frame = FrameQuestion::sized(200, 300, [1; 3]);
    let mut question = JobQuestion::new(frame, jobs, Task::BothWays);
    question.put_records(0, u32::MAX, record::bytes(block::PLAIN));
    // Size 12 is two columns.
    let wide = Record {
        size: 12,
        reference: [2, -1],
        ..block::PLAIN
    };
    for row in 0..8 {
        question.put_read(0, [row, 2], record::bytes(wide));
    }
    question
}

fn saves() -> Vec<JobQuestion> {
    let windows = [
        // One cell, in row 1 and column 3; then none.
        [([0, 4], [0, 2]), ([3, 6], [1, 3])],
        [([0, 4], [0, 2]), ([4, 6], [1, 3])],
        [([0, 4], [0, 1]), ([3, 6], [1, 3])],
        // From column 25 on the first window runs to the stride, and so does the second, which
        // saves nothing.
        [([20, 25], [0, 2]), ([26, 30], [1, 3])],
        [([20, 24], [0, 2]), ([26, 30], [1, 3])],
        // A save's rows aren't taken modulo 16, and a load is no matter to it.
        [([0, 4], [0, 2]), ([0, 4], [16, 18])],
    ];
    let mut questions = windows.map(|windows| saving(pair(save, windows))).to_vec();
    let both = vec![save(window([0, 4], [0, 2])), load(window([0, 4], [0, 2]))];
    questions.push(saving(both));
    questions
}
