//! Files that are played.

use crate::capture::made::Made;
use crate::capture::made::STRIDE;
use crate::capture::saving;
use crate::job::load;
use crate::job::save;
use crate::load::edges::cell;
use crate::load::edges::window;
use crate::question::FrameQuestion;
use crate::save::block;
use crate::split_mix::SplitMix64;
use oracle::leaves::Vector;
use oracle::paper::Job;
use shared::captures;
use shared::captures::worked;

/// The longest file that is taken.
pub const MOST: usize = 65_536;

pub fn files(random: &mut SplitMix64) -> Vec<Vec<u8>> {
    let mut files = vec![
        captures::file(&worked()),
        Made::small().file(),
        of_len(MOST),
    ];
    files.extend(orders());
    files.extend(small().iter().map(Made::file));
    files.extend(moving(random).iter().map(Made::file));
    files
}

/// A well-formed file of so many bytes, which are mostly a field's.
pub fn of_len(len: usize) -> Vec<u8> {
    let field = 2;
    let of_jobs = |jobs: u32| {
        let mut parts = worked();
        let made = Made::small().with(|made| {
            made.jobs = (0..jobs)
                .map(|row| load(window([0, 8], [row, row + 1])))
                .collect();
        });
        parts[1] = made.parts().swap_remove(1);
        let more = len.checked_sub(captures::file(&parts).len())?;
        let bytes = &mut parts[field].1;
        bytes.resize(bytes.len() + more, 0);
        more.is_multiple_of(5).then(|| captures::file(&parts))
    };
    // A job has 13 bytes, so that some number of them leaves whole cells.
    let file = (1..=5).find_map(of_jobs);
    file.expect("the length is that of some file")
}

/// Kinds may come in any order behind the first, and may be empty.
fn orders() -> Vec<Vec<u8>> {
    let orders: [&[usize]; 3] = [&[0, 2, 1], &[0, 3, 2, 4, 1], &[0, 1, 4, 2, 3]];
    let made = Made::small().with(|made| {
        made.records = Some(vec![]);
        // No frame uses reference 2.
        made.fields[2] = Some(vec![]);
    });
    let parts = [Made::small().parts(), made.parts(), made.parts()];
    let ordered = |(parts, order): (Vec<captures::Part>, &[usize])| {
        let parts: Vec<_> = order.iter().map(|&at| parts[at].clone()).collect();
        captures::file(&parts)
    };
    parts.into_iter().zip(orders).map(ordered).collect()
}

/// Frames and windows at their limits.
fn small() -> Vec<Made> {
    let made = Made::small();
    let of_jobs = |jobs: &[([u32; 2], [u32; 2])]| {
        let jobs = jobs
            .iter()
            .map(|&(columns, rows)| load(window(columns, rows)));
        made.with(|made| made.jobs = jobs.collect())
    };
    vec![
        made.with(|made| made.fields[0] = None),
        made.with(|made| made.description.temporal = 0),
        made.with(|made| made.fields[0].as_mut().unwrap().extend([9; 10])),
        made.with(|made| made.fields = [0; 7].map(|_| made.fields[0].clone())),
        // With one tile thread any tile row is the first.
        made.with(|made| made.jobs[0].window.tile_row = 255),
        made.with(|made| made.jobs[0].superblock_row = 65_535),
        made.with(|made| made.jobs[0].pass = 2),
        // Two and eight jobs.
        of_jobs(&[([0, 4], [0, 1]), ([4, 8], [0, 1])]),
        of_jobs(&[0, 1, 2, 3, 4, 5, 6, 7].map(|x| ([x, x + 1], [0, 1]))),
        // Past the frame's columns, to the stride.
        of_jobs(&[([0, 16], [0, 16])]),
        of_jobs(&[([8, 16], [0, 1])]),
        // No row, no column, and rows past the frame, which share nothing.
        of_jobs(&[
            ([0, 8], [0, 0]),
            ([0, 8], [0, 1]),
            ([3, 3], [0, 1]),
            ([0, 8], [1, 17]),
        ]),
        of_jobs(&[([0, 8], [65_519, 65_535])]),
        made.with(|made| {
            made.description.width = 1;
            made.description.height = 1;
            made.jobs[0].window = window([0, 1], [0, 1]);
        }),
        largest(),
        made.with(|made| far(made, 31)),
        made.with(|made| {
            far(made, 32);
            // What isn't used isn't read.
            made.put(0, [0, 0], cell(Vector { y: 1, x: 1 }, 9));
        }),
    ]
}

/// 256 x 256 samples with four tile rows, and two loads in each: the same rows for all.
fn largest() -> Made {
    Made::small().with(|made| {
        made.description.width = 256;
        made.description.height = 256;
        made.description.tile_rows = 4;
        made.description.tile_threads = 255;
        made.description.frame_threads = 255;
        made.description.temporal = 0;
        let of_tile_row = |tile_row: u32| {
            [[0, 16], [16, 32]].map(|columns| {
                let mut job = load(window(columns, [16, 32]));
                job.window.tile_row = tile_row;
                job
            })
        };
        made.jobs = (0..4).flat_map(of_tile_row).collect();
    })
}

/// All references are so many steps before the frame: past 31 they are skipped.
fn far(made: &mut Made, steps: u32) {
    made.description.hint_bits = 8;
    made.description.current_hint = 1 + steps;
}

/// Three references whose cells land in all places.
fn moving(random: &mut SplitMix64) -> Vec<Made> {
    let frame = |change: fn(&mut Made)| {
        Made {
            description: FrameQuestion::sized(120, 64, [1; 3]).description,
            jobs: Vec::new(),
            records: None,
            fields: [0; 7].map(|_| None),
        }
        .with(change)
    };
    let mut whole = frame(|made| made.jobs = vec![load(window([0, 16], [0, 8]))]);
    let mut tiles = frame(|made| {
        made.description.tile_rows = 3;
        made.description.tile_threads = 2;
        made.jobs = [2, 0, 1].map(|row| in_tile_row(row, [0, 15])).to_vec();
    });
    let mut both = saving::whole().with(|made| {
        made.description = FrameQuestion::sized(120, 64, [1; 3]).description;
        made.jobs = eight();
    });
    for made in [&mut whole, &mut tiles, &mut both] {
        lend(made, random);
    }
    for y in 0..8 {
        for x in 0..15 {
            *saving::read(&mut both, [y, x]) = block::any(random, 1);
        }
    }
    vec![whole, tiles, both]
}

fn in_tile_row(tile_row: u32, columns: [u32; 2]) -> Job {
    let mut job = load(window(columns, [0, 8]));
    job.window.tile_row = tile_row;
    job
}

/// Loads and saves of all quarters in turn.
fn eight() -> Vec<Job> {
    let quarters = [[0, 0], [4, 8], [0, 8], [4, 0]].map(|[y, x]| window([x, x + 8], [y, y + 4]));
    quarters
        .into_iter()
        .flat_map(|it| [load(it), save(it)])
        .collect()
}

/// Lends the fields of references 0, 4 and 5, which are used.
fn lend(made: &mut Made, random: &mut SplitMix64) {
    for field in [0, 4, 5] {
        made.fields[field] = Some(vec![0; 5 * 8 * STRIDE]);
        for y in 0..8 {
            for x in (0..STRIDE).filter(|x| x % 3 == 0) {
                let mv = Vector {
                    y: random.component(300),
                    x: random.component(700),
                };
                made.put(field, [y, x], cell(mv, random.within(0, 7) as i8));
            }
        }
    }
}
