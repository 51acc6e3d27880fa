//! Jobs: a batch and its steps.

use super::frame::record_answer;
use super::frame::tile_row;
use super::frame::window_is_fine;
use super::frame::FLAG;
use super::load::load_answer;
use super::load::sources_are_fine;
use super::load::used;
use super::save::save_answer;
use crate::asked::SavePlace;
use crate::kept::FrameRecord;
use crate::Window;

/// What a finished job's step answers: neither 0 nor a refusal.
pub const DONE: u8 = 15;

/// A job's record.
#[derive(Clone, Copy, Debug, PartialEq, Eq)]
pub struct Job {
    /// 0 for a load, 1 for a save.
    pub kind: u8,
    pub window: Window,
    pub superblock_row: u32,
    pub pass: u32,
    pub done: u32,
}

impl Job {
    /// What a save covers, and whose row table it reads.
    pub fn place(&self) -> SavePlace {
        SavePlace {
            window: self.window,
            superblock_row: self.superblock_row,
            pass: self.pass,
        }
    }
}

/// What a batch and each of its steps are handed beside the jobs.
#[derive(Clone, Copy)]
pub struct Handed<'a> {
    pub record: &'a FrameRecord,
    pub present: [u8; 7],
    pub fields: [&'a [u8]; 7],
    pub records: &'a [u8],
    pub projection_len: u64,
    pub saved_len: u64,
}

/// A load's rows times one more than its used references; a save's rows. Rows are those after the
/// cut. Only a job that 3 lets pass has a count.
pub fn steps(record: &FrameRecord, job: &Job) -> u32 {
    let rows = cut_rows(record, job).len() as u32;
    match job.kind {
        0 => rows * (1 + used(record).len() as u32),
        _ => rows,
    }
}

fn cut_rows(record: &FrameRecord, job: &Job) -> std::ops::Range<u32> {
    job.window.row_start..job.window.row_end.min(record.ih8)
}

/// 12 over all jobs, then 1; then the first refused job in the list; 11 last.
pub fn batch_answer(handed: &Handed, jobs: &[Job]) -> u8 {
    if !batch_is_fine(jobs) {
        return 12;
    }
    if !frame_is_fine(handed) {
        return 1;
    }
    let refused = jobs.iter().map(|job| job_answer(handed, job));
    if let Some(answer) = refused.into_iter().find(|&answer| answer != 0) {
        return answer;
    }
    let windows = jobs.iter().flat_map(|job| window(handed.record, job));
    let mut cells: Vec<(u8, u32)> = windows.collect();
    cells.sort_unstable();
    if cells.windows(2).all(|pair| pair[0] != pair[1]) {
        0
    } else {
        11
    }
}

/// Refusal 12 over all jobs, but for their steps.
pub(super) fn batch_is_fine(jobs: &[Job]) -> bool {
    (1..=8).contains(&jobs.len()) && jobs.iter().all(kind_is_fine)
}

fn kind_is_fine(job: &Job) -> bool {
    job.kind <= 1 && [1, 2].contains(&job.pass)
}

fn frame_is_fine(handed: &Handed) -> bool {
    record_answer(handed.record) == 0 && handed.present.iter().all(|flag| FLAG.contains(flag))
}

/// 3, then 12 for steps above the count; then what the load or save itself says.
fn job_answer(handed: &Handed, job: &Job) -> u8 {
    match steps_answer(handed.record, job) {
        0 => own_answer(handed, job),
        answer => answer,
    }
}

fn steps_answer(record: &FrameRecord, job: &Job) -> u8 {
    if !window_is_fine(record, &job.window) {
        3
    } else if job.done > steps(record, job) {
        12
    } else {
        0
    }
}

fn own_answer(handed: &Handed, job: &Job) -> u8 {
    if job.kind == 0 {
        let Handed {
            present,
            fields,
            projection_len,
            ..
        } = *handed;
        load_answer(handed.record, &job.window, present, fields, projection_len)
    } else {
        save_answer(
            handed.record,
            &job.place(),
            handed.records,
            handed.saved_len,
        )
    }
}

/// The cells of a job's window, each with the kind of the job that writes it.
fn window(record: &FrameRecord, job: &Job) -> Vec<(u8, u32)> {
    let Window {
        tile_row: index,
        col_start,
        col_end,
        ..
    } = job.window;
    let col_limit = match col_end.min(record.iw8) {
        _ if job.kind == 0 => col_end,
        end if end < record.iw8 => end,
        _ => record.stride,
    };
    let row = |y: u32| match job.kind {
        0 => 16 * tile_row(record, index) + y % 16,
        _ => y,
    };
    let cells = |y| (col_start..col_limit).map(move |x| (job.kind, row(y) * record.stride + x));
    cut_rows(record, job).flat_map(cells).collect()
}

/// Job k's step: 12, 1, 3, 12, 4, 5, then "done", then the reads of its own row.
pub fn step_answer(handed: &Handed, jobs: &[Job], k: usize) -> u8 {
    let Some(job) = jobs
        .get(k)
        .filter(|job| jobs.len() <= 8 && kind_is_fine(job))
    else {
        return 12;
    };
    if !frame_is_fine(handed) {
        return 1;
    }
    let before_reads = own_answer(
        handed,
        &Job {
            window: no_rows(job.window),
            ..*job
        },
    );
    let ahead = [steps_answer(handed.record, job), before_reads];
    if let Some(&answer) = ahead.iter().find(|&&answer| answer != 0) {
        return answer;
    }
    if job.done == steps(handed.record, job) {
        return DONE;
    }
    row_answer(handed, job)
}

/// A window without rows has no reads, and all else that it had.
fn no_rows(window: Window) -> Window {
    Window {
        row_end: window.row_start,
        ..window
    }
}

/// The reads of the job's next row: none where a load clears.
fn row_answer(handed: &Handed, job: &Job) -> u8 {
    let rows = cut_rows(handed.record, job);
    let pass = job.done / rows.len() as u32;
    let y = rows.start + job.done % rows.len() as u32;
    let window = Window {
        row_start: y,
        row_end: y + 1,
        ..job.window
    };
    match (job.kind, pass) {
        (0, 0) => 0,
        (0, _) => {
            let field = handed.fields[used(handed.record)[pass as usize - 1]];
            7 * u8::from(!sources_are_fine(handed.record, &window, field))
        }
        _ => own_answer(handed, &Job { window, ..*job }),
    }
}
