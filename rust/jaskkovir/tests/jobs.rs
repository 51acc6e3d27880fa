//! A batch of one load, and its refusals.

mod common;

use common::WORKED;
use jaskkovir::jobs::admit;
use jaskkovir::jobs::step;
use jaskkovir::jobs::Sources;
use jaskkovir::jobs::DONE;
use jaskkovir::refusal;
use jaskkovir::tmvs::load_tmvs;
use jaskkovir::tmvs::Window;
use jaskkovir::Frame;
use jaskkovir::Job;

const STRIDE: usize = 16;

/// Only field 0 is lent.
const PRESENT: [u8; 7] = [1, 0, 0, 0, 0, 0, 0];

/// Its worked job: 8 rows are cleared, then read for one reference.
const JOB: Job = Job {
    kind: 0,
    tile_row: 0,
    left: 0,
    right: 8,
    top: 0,
    bottom: 8,
    superblock_row: 0,
    pass: 1,
    done: 0,
};

const STEPS: u32 = 16;

/// The frame, a saved field that is empty but for row 2, column 3, and a projection.
fn worked() -> (Frame, Vec<u8>, Vec<u8>) {
    let mut cells = [[0; 5]; 8 * STRIDE];
    cells[2 * STRIDE + 3] = [0, 0, 64, 0, 1];
    let frame = Frame::set_up(&WORKED, &PRESENT).unwrap();
    (frame, cells.concat(), vec![9; 5 * 16 * STRIDE])
}

fn sources<'a>(frame: &'a Frame, field: &'a [u8]) -> Sources<'a> {
    Sources {
        frame: &frame.0,
        present: &PRESENT,
        fields: [field, &[], &[], &[], &[], &[], &[]],
        records: &[],
    }
}

#[test]
fn a_job_comes_back_from_its_bytes() {
    let bytes = std::array::from_fn(|at| 7 * at as u8 + 100);
    assert_eq!(Job::from_bytes(&bytes).to_bytes(), bytes);
    let job = Job {
        left: 0x0102,
        done: 0x0304_0506,
        ..JOB
    };
    let wanted = [0, 0, 2, 1, 8, 0, 0, 0, 8, 0, 0, 0, 1, 6, 5, 4, 3];
    assert_eq!(job.to_bytes(), wanted);
}

#[test]
fn the_worked_job_is_its_load() {
    let (frame, field, mut projection) = worked();
    let mut whole = projection.clone();
    let sources = sources(&frame, &field);
    let mut jobs = JOB.to_bytes();
    assert_eq!(admit(&sources, &jobs, &projection, &[]), refusal::ACCEPTED);
    for done in 1..=STEPS {
        let answer = step(&sources, &mut jobs, 0, &mut projection, &mut []);
        assert_eq!(answer, refusal::ACCEPTED);
        assert_eq!(Job::from_bytes(&jobs), Job { done, ..JOB });
    }
    let answer = step(&sources, &mut jobs, 0, &mut projection, &mut []);
    assert_eq!((answer, Job::from_bytes(&jobs).done), (DONE, STEPS));
    let window = Window {
        tile_row: 0,
        left: 0,
        right: 8,
        top: 0,
        bottom: 8,
    };
    load_tmvs(&frame.0, &window, &PRESENT, sources.fields, &mut whole);
    assert_eq!(projection, whole);
}

#[test]
fn refusals_write_nothing() {
    let (frame, field, mut projection) = worked();
    let sources = sources(&frame, &field);
    let mut refused = |jobs: &[Job], k: usize| {
        let lent: Vec<u8> = jobs.iter().flat_map(Job::to_bytes).collect();
        let mut bytes = lent.clone();
        let admitted = admit(&sources, &bytes, &projection, &[]);
        let stepped = step(&sources, &mut bytes, k, &mut projection, &mut []);
        assert!(bytes == lent && projection.iter().all(|&byte| byte == 9));
        (admitted, stepped)
    };
    let [none, job, range] = [0, refusal::JOB, refusal::RANGE];
    assert_eq!(refused(&[], 0), (job, job));
    assert_eq!(refused(&[JOB; 9], 0), (job, job));
    assert_eq!(refused(&[JOB], 1), (none, job));
    assert_eq!(refused(&[JOB; 2], 2), (refusal::SHARED, job));
    assert_eq!(refused(&[Job { kind: 2, ..JOB }], 0), (job, job));
    assert_eq!(refused(&[Job { pass: 0, ..JOB }], 0), (job, job));
    assert_eq!(refused(&[Job { bottom: 17, ..JOB }], 0), (range, range));
    let beyond = Job { done: 17, ..JOB };
    assert_eq!(refused(&[beyond], 0), (job, job));
    // Nothing is lent for a save.
    let buffer = refusal::BUFFER;
    assert_eq!(refused(&[Job { kind: 1, ..JOB }], 0), (buffer, buffer));
}
