//! Refusals of a batch at each rank of their order, alone and two at once.

use crate::damage::Damage;
use crate::job::load;
use crate::job::question::JobQuestion;
use crate::job::save;
use crate::load::edges::cell;
use crate::load::edges::window;
use crate::load::question::FieldLen;
use crate::question::FrameQuestion;
use crate::record;
use crate::save::block;
use oracle::leaves::Record;
use oracle::leaves::Vector;
use oracle::paper;
use shared::orders::Task;

/// Something that a batch is refused for, put into one of its jobs.
type Fault = fn(&mut JobQuestion, usize);

const LOADS: [usize; 2] = [0, 2];

const SAVES: [usize; 2] = [1, 3];

const ALL: [usize; 4] = [0, 1, 2, 3];

/// Faults of single jobs, with the jobs that can have them.
const OF_JOBS: [(Fault, &[usize]); 14] = [
    (|batch, job| batch.jobs[job].kind = 2, &ALL),
    (|batch, job| batch.jobs[job].kind = 255, &ALL),
    (|batch, job| batch.jobs[job].pass = 0, &ALL),
    (|batch, job| batch.jobs[job].pass = 3, &ALL),
    (backwards, &ALL),
    (|batch, job| batch.jobs[job].window.row_end += 15, &ALL),
    (|batch, job| batch.jobs[job].window.col_end = 33, &ALL),
    (too_many_done, &ALL),
    (|batch, job| batch.jobs[job].done = u32::MAX, &ALL),
    (bad_cell, &LOADS),
    (absent_row, &SAVES),
    (bad_record, &SAVES),
    (wide_block, &SAVES),
    (shared_window, &[2, 3]),
];

/// Faults of all jobs at once.
const OF_ALL: [Fault; 9] = [
    |batch, _| batch.damage = Damage::ruin(9),
    |batch, _| batch.damage = Damage::ruin(38),
    |batch, _| batch.present[2] = 2,
    |batch, _| batch.projection_len -= 1,
    |batch, _| batch.saved_len -= 1,
    |batch, _| batch.records_len -= 1,
    short_field,
    |batch, _| batch.present[5] = 0,
    |batch, _| batch.present[0] = 0,
];

/// One or two of each rank, with an early job and a late one.
const RANKED: [(Fault, [usize; 2]); 14] = [
    (|batch, job| batch.jobs[job].kind = 2, [0, 3]),
    (|batch, job| batch.jobs[job].pass = 0, [0, 3]),
    (|batch, _| batch.damage = Damage::ruin(9), [0, 3]),
    (|batch, _| batch.present[2] = 2, [0, 3]),
    (backwards, [0, 3]),
    (too_many_done, [0, 3]),
    (|batch, _| batch.projection_len -= 1, [0, 2]),
    (|batch, _| batch.saved_len -= 1, [1, 3]),
    (|batch, _| batch.present[5] = 0, [0, 2]),
    (absent_row, SAVES),
    (bad_cell, LOADS),
    (bad_record, SAVES),
    (wide_block, SAVES),
    (shared_window, [2, 3]),
];

pub fn questions() -> Vec<JobQuestion> {
    let mut questions = counts();
    questions.extend(stepped());
    for (fault, jobs) in OF_JOBS {
        questions.extend(jobs.iter().map(|&job| base().with(|it| fault(it, job))));
    }
    questions.extend(OF_ALL.map(|fault| base().with(|it| fault(it, 0))));
    questions.extend(pairs());
    questions
}

/// A load, a save, a load and a save, on a frame of 25 columns and 38 rows, whose rows have 32
/// cells; references 0, 4 and 5 are used. No two jobs read the same cell or record.
fn base() -> JobQuestion {
    let jobs = vec![
        load(window([0, 4], [10, 12])),
        save(window([3, 7], [0, 2])),
        load(window([20, 25], [10, 12])),
        save(window([3, 7], [4, 7])),
    ];
    let frame = FrameQuestion::sized(200, 300, [1; 3]);
    let mut question = JobQuestion::new(frame, jobs, Task::Steps);
    question.put_records(0, u32::MAX, record::bytes(block::PLAIN));
    question
}

/// Any number of jobs. Behind the last one of a batch stands a record whose pass is none.
fn counts() -> Vec<JobQuestion> {
    let apart = |count: u32| {
        base().with(|batch| {
            let row = |y| load(window([0, 4], [y, y + 1]));
            batch.jobs = (0..count).map(row).collect();
        })
    };
    [0, 1, 2, 7, 8, 9, 255].map(apart).to_vec()
}

/// Jobs under way and finished ones, which a batch may have.
fn stepped() -> Vec<JobQuestion> {
    // Two rows from three references; three rows.
    [[1, 1, 7, 2], [2, 0, 8, 3], [8, 2, 8, 3], [8, 2, 8, 4]]
        .map(|done| {
            base().with(|batch| {
                for (job, done) in batch.jobs.iter_mut().zip(done) {
                    job.done = done;
                }
            })
        })
        .to_vec()
}

/// Each two faults, with the first in an early job and the second in a late one, and the other way
/// round.
fn pairs() -> Vec<JobQuestion> {
    let mut questions = Vec::new();
    for (at, (first, [early, late])) in RANKED.into_iter().enumerate() {
        for (second, [other_early, other_late]) in RANKED.into_iter().skip(at + 1) {
            for [job, other] in [[early, other_late], [late, other_early]] {
                questions.push(base().with(|batch| {
                    first(batch, job);
                    second(batch, other);
                }));
            }
        }
    }
    questions
}

fn backwards(batch: &mut JobQuestion, job: usize) {
    batch.jobs[job].window.col_end = 0;
    batch.jobs[job].window.col_start = 1;
}

fn too_many_done(batch: &mut JobQuestion, job: usize) {
    let record = batch.frame.record().expect("a batch's frame is accepted");
    batch.jobs[job].done = paper::steps(&record, &batch.jobs[job]) + 1;
}

fn short_field(batch: &mut JobQuestion, _: usize) {
    let len = batch.listed() - 1;
    batch.field = FieldLen { field: 4, len };
}

/// In the last field that is read, at the job's last row.
fn bad_cell(batch: &mut JobQuestion, job: usize) {
    let bad = cell(Vector { y: 0, x: 0 }, 8);
    let window = batch.jobs[job].window;
    batch.put(5, [11, window.col_start], 1, bad);
}

/// With superblocks of 64 samples the table has eight rows of cells.
fn absent_row(batch: &mut JobQuestion, job: usize) {
    batch.jobs[job].window.row_start += 8;
    batch.jobs[job].window.row_end += 8;
}

fn bad_record(batch: &mut JobQuestion, job: usize) {
    read_first(batch, job, |record| record.mf = 4);
}

fn wide_block(batch: &mut JobQuestion, job: usize) {
    read_first(batch, job, |record| record.size = 0);
}

/// Changes the first record that a save reads.
fn read_first(batch: &mut JobQuestion, job: usize, change: fn(&mut Record)) {
    let mut record = block::PLAIN;
    change(&mut record);
    let row = 4 * (job as u32 / 2);
    batch.put_read(job, [row, 3], record::bytes(record));
}

/// The job's window starts in the last cell of that of the first job of its kind.
fn shared_window(batch: &mut JobQuestion, job: usize) {
    let first = batch.jobs[job - 2].window;
    let window = &mut batch.jobs[job].window;
    *window = crate::load::edges::window(
        [first.col_end.saturating_sub(1), first.col_end + 3],
        [first.row_end - 1, first.row_end + 1],
    );
}

#[cfg(test)]
mod tests {
    use super::*;

    /// The answer to the base with some faults.
    fn answer(faults: &[(Fault, usize)]) -> u8 {
        let question = base().with(|batch| {
            for &(fault, job) in faults {
                fault(batch, job);
            }
        });
        question.refusal().unwrap()
    }

    #[test]
    fn refusals_come_in_their_order() {
        let kind: Fault = |batch, job| batch.jobs[job].kind = 2;
        let ruined: Fault = |batch, _| batch.damage = Damage::ruin(9);
        let short: Fault = |batch, _| batch.projection_len -= 1;
        assert_eq!(answer(&[]), 0);
        // Over all jobs.
        assert_eq!(answer(&[(ruined, 0), (kind, 3)]), 12);
        assert_eq!(answer(&[(ruined, 0), (backwards, 0)]), 1);
        // In one job.
        assert_eq!(answer(&[(backwards, 0), (too_many_done, 0)]), 3);
        assert_eq!(answer(&[(too_many_done, 0), (short, 0)]), 12);
        assert_eq!(answer(&[(short, 0), (bad_cell, 0)]), 4);
        // The first job of the list that is refused.
        assert_eq!(answer(&[(bad_cell, 0), (backwards, 1)]), 7);
        assert_eq!(answer(&[(bad_record, 1), (too_many_done, 2)]), 8);
        assert_eq!(answer(&[(too_many_done, 1), (bad_cell, 0)]), 7);
        // 11 last.
        assert_eq!(answer(&[(shared_window, 2)]), 11);
        assert_eq!(answer(&[(shared_window, 2), (wide_block, 3)]), 9);
    }
}
