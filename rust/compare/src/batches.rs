//! Random batches of jobs.

use crate::windows;
use jaskkovir::tmvs::Window;
use jaskkovir::Job;
use oracle::paper;
use oracle::paper::FrameRecord;
use shared::split_mix::SplitMix64;

pub const MOST: usize = 8;

/// Jobs that are mostly accepted together: one that would share a cell with another is mostly left
/// out, so that there may be fewer than were asked for.
pub fn any(random: &mut SplitMix64, record: &FrameRecord) -> Vec<Job> {
    let mut jobs: Vec<Job> = Vec::new();
    for _ in 0..1 + random.below(2 * MOST) {
        let job = job(random, record);
        let apart = jobs.iter().all(|other| !share(record, other, &job));
        if jobs.len() < MOST && (apart || random.below(200) == 0) {
            jobs.push(job);
        }
    }
    jobs
}

fn job(random: &mut SplitMix64, record: &FrameRecord) -> Job {
    let kind = random.below(2) as u8;
    let [left, right] = columns(random, record);
    let [top, bottom] = rows(random, record, kind);
    let side = record.sbsz as u16 / 2;
    Job {
        kind,
        tile_row: random.below(record.tile_rows as usize) as u8,
        left,
        right,
        top,
        bottom,
        superblock_row: top / side,
        pass: 1 + random.below(2) as u8,
        done: 0,
    }
}

/// Some groups of 8 columns, as decoders have them, and any where a load comes of it.
fn columns(random: &mut SplitMix64, record: &FrameRecord) -> [u16; 2] {
    let [iw8, stride] = [record.iw8, record.stride].map(|number| number as usize);
    let start = random.below(iw8);
    let columns = match random.below(50) {
        0 => [start, stride.min(start + random.below(20))],
        1 => [0, stride],
        _ => [
            start & !7,
            stride.min((start & !7) + 8 + 8 * random.below(3)),
        ],
    };
    columns.map(|column| column as u16)
}

/// A save's rows are of one superblock, so that its table has them; some pass the frame.
fn rows(random: &mut SplitMix64, record: &FrameRecord, kind: u8) -> [u16; 2] {
    let start = random.below(record.ih8 as usize);
    let group = start & !7;
    let rows = match random.below(50) {
        0 => {
            let past = record.ih8 as usize + random.below(40);
            [past, past + random.below(9)]
        }
        1..10 => [start, group + 8],
        10..15 => [group, start],
        15..20 if kind == 0 => [start, start + random.below(17)],
        20..25 if kind == 0 || record.sbsz == 32 => [start & !15, (start & !15) + 16],
        _ => [group, group + 8],
    };
    rows.map(|row| row as u16)
}

/// Whether both write some cell, for windows that are in range.
fn share(record: &FrameRecord, one: &Job, other: &Job) -> bool {
    let tile_row = |job: &Job| [0, job.tile_row][usize::from(record.n_tile_threads > 1)];
    let rows = |job: &Job| job.top..job.bottom.min(record.ih8 as u16);
    let end = |job: &Job| match u32::from(job.right) {
        end if job.kind == 1 && end >= record.iw8 => record.stride as u16,
        _ => job.right,
    };
    let place = |job: &Job, row: u16| match job.kind {
        0 => (tile_row(job), row % 16),
        _ => (0, row),
    };
    let meets = |row| rows(other).any(|it| place(other, it) == place(one, row));
    one.kind == other.kind && one.left < end(other) && other.left < end(one) && rows(one).any(meets)
}

/// Changes a number of a job, or how many jobs there are.
pub fn damage(random: &mut SplitMix64, record: &FrameRecord, jobs: &mut Vec<Job>) {
    let some = |random: &mut SplitMix64, to: usize| match random.below(8) {
        0 => random.below(1 << 16),
        _ => random.below(to),
    };
    let stride = record.stride as usize + 3;
    let at = random.below(jobs.len());
    let job = &mut jobs[at];
    match random.below(14) {
        0 => jobs.clear(),
        1 => jobs.resize(MOST + 1 + random.below(3), jobs[at]),
        2 => jobs.push(jobs[at]),
        3 => job.kind = random.bytes::<1>()[0],
        4 => job.kind ^= 1,
        5 => job.tile_row = some(random, 5) as u8,
        6 => job.left = some(random, stride) as u16,
        7 => job.right = some(random, stride) as u16,
        8 => job.top = some(random, 60) as u16,
        9 => job.bottom = some(random, 60) as u16,
        10 => job.superblock_row = some(random, 8) as u16,
        11 => job.pass = some(random, 4) as u8,
        _ => start_later(random, record, job),
    }
}

/// A job that has done some of its steps, or more than it has.
fn start_later(random: &mut SplitMix64, record: &FrameRecord, job: &mut Job) {
    let steps = paper::steps(record, &for_paper(job));
    job.done = match random.below(8) {
        0 => steps + 1,
        1 => u32::from_le_bytes(random.bytes()),
        2 => steps,
        _ => random.below(steps as usize + 1) as u32,
    };
}

pub fn window(job: &Job) -> Window {
    Window {
        tile_row: job.tile_row.into(),
        left: job.left.into(),
        right: job.right.into(),
        top: job.top.into(),
        bottom: job.bottom.into(),
    }
}

pub fn for_paper(job: &Job) -> paper::Job {
    paper::Job {
        kind: job.kind,
        window: windows::cut_window(&window(job)),
        superblock_row: job.superblock_row.into(),
        pass: job.pass.into(),
        done: job.done,
    }
}

#[cfg(test)]
mod tests {
    use super::*;
    use crate::desk::Desk;
    use crate::desk::MORE;
    use crate::frames;
    use oracle::paper::Handed;

    /// Damage leaves at least one batch to each number that jobs can be refused with.
    #[test]
    fn batches_are_of_all_kinds() {
        let mut random = SplitMix64::new(3);
        let mut seen = [0; 14];
        for _ in 0..500 {
            let record = frames::record(&mut random, frames::SMALL);
            let desk = Desk::new(&mut random, record);
            let fields = desk.fields.each_ref().map(Vec::as_slice);
            let handed = Handed {
                record: &record,
                present: [1; 7],
                fields,
                records: &desk.records[..desk.records.len() - MORE],
                projection_len: desk.ours.projection.len() as u64,
                saved_len: desk.ours.saved.len() as u64,
            };
            let mut jobs = any(&mut random, &record);
            assert!((1..=MOST).contains(&jobs.len()));
            let answer = |jobs: &[Job]| {
                let jobs: Vec<paper::Job> = jobs.iter().map(for_paper).collect();
                usize::from(paper::batch_answer(&handed, &jobs))
            };
            seen[answer(&jobs)] += 1;
            damage(&mut random, &record, &mut jobs);
            seen[answer(&jobs)] += 1;
        }
        assert!(seen[0] > 500, "{seen:?}");
        assert!([3, 6, 9, 11, 12].iter().all(|&at| seen[at] > 0), "{seen:?}");
    }
}
