//! Times of a batch of loads, admitted and stepped.

use crate::inputs;
use crate::load;
use crate::load::Fill;
use crate::timing::Timing;
use jaskkovir::jobs;
use jaskkovir::jobs::Job;
use jaskkovir::jobs::Sources;
use jaskkovir::Frame;
use oracle::load::Prepared;
use std::hint::black_box;

const JOBS: usize = 8;

/// A job clears each of its rows, and then takes each from three references.
const PASSES: usize = 4;

/// Eight loads of one superblock row, side by side: admitted together, and stepped by turns until all
/// are done. The Rust loads them whole, one after the other.
pub fn batch() -> Timing {
    let fields = load::fields(&Fill::Blocks);
    let fields = fields.each_ref().map(Vec::as_slice);
    let frame = inputs::frame();
    let listed = frame.listed_sizes().expect("the frame is accepted");
    let mut projection = inputs::lent(listed.projected, load::CELL_LEN);
    let Frame(frame) = frame;
    let (first, lent) = (rust_window(0), fields.map(Some));
    let mut rust = Prepared::new(&inputs::FRAME, [true; 7], &first, lent, &projection);
    let sources = Sources {
        frame: &frame,
        present: &inputs::PRESENT,
        fields,
        records: &[],
    };
    let fresh: Vec<[u8; Job::LEN]> = (0..JOBS).map(|k| job(k).to_bytes()).collect();
    let ours = || {
        let mut batch = fresh.concat();
        let sources = black_box(&sources);
        assert_eq!(jobs::admit(sources, &batch, &projection, &[]), 0);
        for k in (0..JOBS).cycle().take(JOBS * PASSES * load::HIGH) {
            let answer = jobs::step(sources, &mut batch, k, &mut projection, &mut []);
            assert_eq!(answer, 0);
        }
    };
    let rusts = || {
        for k in 0..JOBS {
            rust.set_window(&rust_window(k));
            black_box(&rust).call();
        }
    };
    let cells = load::HIGH * load::COLUMNS;
    Timing::new(
        "batch of 8 loads, blocks of 4 x 4 cells",
        (cells, "cell"),
        ours,
        rusts,
    )
}

/// The columns of a job.
fn columns(k: usize) -> [usize; 2] {
    [k, k + 1].map(|k| k * load::COLUMNS / JOBS)
}

fn job(k: usize) -> Job {
    let [left, right] = columns(k).map(|column| column as u16);
    Job {
        kind: 0,
        tile_row: 0,
        left,
        right,
        top: 0,
        bottom: load::HIGH as u16,
        superblock_row: 0,
        pass: 1,
        done: 0,
    }
}

fn rust_window(k: usize) -> oracle::Window {
    let [col_start, col_end] = columns(k).map(|column| column as u32);
    oracle::Window {
        tile_row: 0,
        col_start,
        col_end,
        row_start: 0,
        row_end: load::HIGH as u32,
    }
}
