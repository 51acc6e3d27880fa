//! Files that are well formed and refused: at each rank of the refusals' order, alone and two at
//! once.

use crate::capture::accepted::of_len;
use crate::capture::accepted::MOST;
use crate::capture::made::Made;
use crate::capture::saving;
use crate::job::load;
use crate::job::save;
use crate::load::edges::cell;
use crate::load::edges::window;
use oracle::leaves::Vector;

/// Something that a file is refused for.
type Fault = fn(&mut Made);

const NO_PASS: Fault = |made| made.jobs[0].pass = 0;
const WIDE: Fault = |made| made.description.width = 257;
const BAD_HINT: Fault = |made| made.description.hints_by_ref[6][6] = 8;
const BACKWARDS: Fault = |made| made.jobs[0].window.col_start = 9;
const SHORT: Fault = |made| made.fields[0].as_mut().unwrap().truncate(5 * 15);
const BAD_CELL: Fault = |made| made.put(0, [0, 7], cell(Vector { y: 0, x: 0 }, 8));
const SHARED: Fault = |made| made.jobs.push(load(window([7, 8], [0, 1])));

const JOBS: [Fault; 8] = [
    |made| made.jobs.clear(),
    |made| made.jobs = vec![made.jobs[0]; 9],
    |made| made.jobs[0].kind = 2,
    |made| made.jobs[0].kind = 255,
    NO_PASS,
    |made| made.jobs[0].pass = 3,
    |made| made.jobs[0].pass = 255,
    |made| {
        made.jobs = vec![made.jobs[0]; 8];
        made.jobs[7].kind = 2;
    },
];

const SIZES: [Fault; 14] = [
    |made| made.description.width = 0,
    WIDE,
    |made| made.description.width = 65_535,
    |made| made.description.height = 0,
    |made| made.description.height = 257,
    |made| made.description.sb128 = 2,
    |made| made.description.tile_rows = 0,
    |made| made.description.tile_rows = 5,
    |made| made.description.tile_rows = 64,
    |made| made.description.tile_rows = 255,
    |made| made.description.tile_threads = 0,
    |made| made.description.frame_threads = 0,
    |made| made.description.temporal = 2,
    |made| made.description.temporal = 255,
];

const HINTS: [Fault; 6] = [
    |made| made.description.hint_bits = 9,
    |made| made.description.hint_bits = 255,
    |made| made.description.current_hint = 8,
    |made| made.description.hints[6] = 8,
    |made| made.description.hints_by_ref[0][0] = 8,
    BAD_HINT,
];

const RANGES: [Fault; 6] = [
    BACKWARDS,
    |made| made.jobs[0].window.row_start = 2,
    |made| made.jobs[0].window.row_end = 17,
    |made| made.jobs[0].window.col_end = 17,
    |made| made.jobs[0].window.col_end = 65_535,
    // With one tile thread it would be the first.
    |made| {
        made.description.tile_threads = 2;
        made.jobs[0].window.tile_row = 1;
    },
];

/// Parts that are too short. A field that is there and empty is one.
const BUFFERS: [Fault; 5] = [
    SHORT,
    |made| made.fields[0] = Some(vec![]),
    |made| made.jobs[0].kind = 1,
    |made| {
        made.jobs[0].kind = 1;
        made.records = Some(vec![]);
    },
    |made| {
        made.jobs[0].kind = 1;
        made.records = Some(vec![0; 12 * 70]);
    },
];

const CELLS: [Fault; 5] = [
    BAD_CELL,
    |made| made.put(0, [0, 0], cell(Vector { y: 0, x: 0 }, -1)),
    |made| made.put(0, [0, 3], cell(Vector { y: 0, x: 4096 }, 1)),
    |made| made.put(0, [0, 3], cell(Vector { y: -4096, x: 0 }, 7)),
    |made| made.put(0, [0, 3], cell(Vector { y: i16::MIN, x: 0 }, 1)),
];

const WINDOWS: [Fault; 4] = [
    SHARED,
    |made| made.jobs.push(made.jobs[0]),
    // Rows that are 16 apart.
    |made| {
        made.description.height = 256;
        made.description.temporal = 0;
        made.jobs = vec![load(window([0, 8], [0, 2])), load(window([7, 8], [17, 18]))];
    },
    // Tile rows that one thread takes as the first.
    |made| {
        made.description.tile_rows = 2;
        made.jobs.push(made.jobs[0]);
        made.jobs[1].window.tile_row = 1;
    },
];

/// Faults that leave one another be, in the order of their numbers.
const RANKED: [Fault; 7] = [NO_PASS, WIDE, BAD_HINT, BACKWARDS, SHORT, BAD_CELL, SHARED];

pub fn files() -> Vec<Vec<u8>> {
    let faults = [
        &JOBS[..],
        &SIZES,
        &HINTS,
        &RANGES,
        &BUFFERS,
        &CELLS,
        &WINDOWS,
    ];
    let mut files: Vec<Vec<u8>> = faults.concat().iter().map(|it| faulty(&[*it])).collect();
    files.extend(pairs());
    files.extend(jobs_apart());
    files.extend(saves());
    // Well formed, and a byte too long.
    files.push(of_len(MOST + 1));
    files
}

fn faulty(faults: &[Fault]) -> Vec<u8> {
    let change = |made: &mut Made| faults.iter().for_each(|fault| fault(made));
    Made::small().with(change).file()
}

/// Each two ranks at once, and a malformed file of each rank.
fn pairs() -> Vec<Vec<u8>> {
    let mut files = Vec::new();
    for (at, first) in RANKED.into_iter().enumerate() {
        for second in RANKED.into_iter().skip(at + 1) {
            files.push(faulty(&[first, second]));
        }
        let mut malformed = faulty(&[first]);
        malformed.push(0);
        files.push(malformed);
    }
    files
}

/// The first refused job answers, whatever a later one has; the kinds and passes of all jobs come
/// before.
fn jobs_apart() -> Vec<Vec<u8>> {
    // Columns that don't reach the sources of the other half.
    let frame = Made::small().with(|made| {
        made.description.width = 128;
        made.jobs = vec![load(window([0, 4], [0, 2])), load(window([12, 16], [0, 2]))];
    });
    let bad_cell = |made: &mut Made, x: usize| {
        let cell = cell(Vector { y: 0, x: 0 }, 8);
        made.put(0, [0, x], cell);
    };
    let range = |made: &mut Made, job: usize| made.jobs[job].window.row_end = 40;
    let made = [
        frame.with(|made| {
            bad_cell(made, 0);
            range(made, 1);
        }),
        frame.with(|made| {
            range(made, 0);
            bad_cell(made, 15);
        }),
        frame.with(|made| range(made, 1)),
        frame.with(|made| bad_cell(made, 15)),
        frame.with(|made| {
            bad_cell(made, 0);
            made.jobs[1].pass = 0;
        }),
        // A load that is accepted, and a save for which nothing is lent.
        frame.with(|made| made.jobs[1].kind = 1),
    ];
    made.map(|made| made.file()).to_vec()
}

/// Records are large: one file for each number.
fn saves() -> Vec<Vec<u8>> {
    let absent = saving::whole().with(|made| made.jobs[0].superblock_row = 1);
    let bad = saving::whole().with(|made| saving::read(made, [1, 2])[11] = 4);
    // 128 samples wide.
    let wide = saving::whole().with(|made| saving::read(made, [1, 2])[10] = 0);
    let shared = saving::whole().with(|made| made.jobs.push(save(window([7, 9], [1, 2]))));
    [absent, bad, wide, shared].map(|made| made.file()).to_vec()
}

#[cfg(test)]
mod tests {
    use super::*;
    use oracle::replay::replay;
    use oracle::replay::text;

    #[test]
    fn refusals_come_in_their_order() {
        let numbers = [12, 1, 2, 3, 4, 7, 11];
        for (at, (number, first)) in numbers.into_iter().zip(RANKED).enumerate() {
            let wanted = format!("refused {number}\n");
            assert_eq!(text(&replay(&faulty(&[first]))), wanted);
            for second in RANKED.into_iter().skip(at + 1) {
                assert_eq!(text(&replay(&faulty(&[second, first]))), wanted);
            }
        }
    }
}
