//! The calls of the list, on parts of the desk.

use jaskkovir::calls;
use jaskkovir::calls::Block;
use jaskkovir::calls::Description;
use jaskkovir::calls::Row;
use jaskkovir::calls::Searched;
use jaskkovir::jobs;
use jaskkovir::jobs::Sources;
use jaskkovir::tmvs;
use jaskkovir::tmvs::Saving;
use jaskkovir::tmvs::Window;
use shared::desk::Desk;
use shared::desk::Role;

/// What was answered, and the parts that may have been written, as they are then.
pub struct Called {
    pub answers: Vec<u8>,
    pub after: Vec<(Role, Vec<u8>)>,
}

pub fn call(desk: &Desk, line: &[usize]) -> Called {
    let n = |at: usize| line.get(at).copied().unwrap_or(0);
    let part = |role| desk.part(role);
    match n(0) {
        10 => writing(desk, [Role::FRAME], |[frame]| {
            calls::init_frame(&description(desk, n), part(Role::PRESENT), frame)
        }),
        11 => writing(desk, [], |[]| calls::check(part(Role::FRAME))),
        12 => writing(desk, [Role::SIZES], |[sizes]| {
            calls::listed_sizes(part(Role::FRAME), sizes)
        }),
        13 => writing(desk, [Role::TILE], |[tile]| {
            calls::tile_sbrow_init(part(Role::FRAME), &row(n), tile)
        }),
        14 => writing(desk, [Role::RECORDS], |[records]| {
            let [frame, tile, record] = [Role::FRAME, Role::TILE, Role::BLOCK].map(part);
            calls::splat_mv(frame, tile, record, &block(n), records)
        }),
        15 => writing(desk, [Role::SAVED], |[saved]| {
            tmvs::save_tmvs(part(Role::FRAME), &saving(n), part(Role::RECORDS), saved)
        }),
        16 => writing(desk, [Role::PROJECTION], |[projection]| {
            let [frame, present] = [Role::FRAME, Role::PRESENT].map(part);
            tmvs::load_tmvs(frame, &window(n), present, fields(desk), projection)
        }),
        17 => writing(desk, [Role::STACK, Role::FOUND], |[stack, found]| {
            calls::find(&searched(desk), part(Role::ASK), stack, found)
        }),
        18 => writing(desk, [], |[]| {
            let [jobs, projection, saved] = [Role::JOBS, Role::PROJECTION, Role::SAVED].map(part);
            jobs::admit(&sources(desk), jobs, projection, saved)
        }),
        19 => writing(
            desk,
            [Role::STEPS, Role::PROJECTION, Role::SAVED],
            |[steps, projection, saved]| calls::play(part(Role::FILE), projection, saved, steps),
        ),
        _ => steps(desk, n(1) == 1, &line[2..]),
    }
}

/// A call that may write these parts.
fn writing<const N: usize>(
    desk: &Desk,
    roles: [Role; N],
    call: impl FnOnce([&mut [u8]; N]) -> u8,
) -> Called {
    let mut parts = roles.map(|role| desk.part(role).to_vec());
    let answer = call(parts.each_mut().map(Vec::as_mut_slice));
    Called {
        answers: vec![answer],
        after: roles.into_iter().zip(parts).collect(),
    }
}

/// Steps of the jobs that are named. What they change is told or not.
fn steps(desk: &Desk, is_told: bool, list: &[usize]) -> Called {
    let roles = [Role::JOBS, Role::PROJECTION, Role::SAVED];
    let [mut jobs, mut projection, mut saved] = roles.map(|role| desk.part(role).to_vec());
    let sources = sources(desk);
    let step = |&k: &usize| jobs::step(&sources, &mut jobs, k, &mut projection, &mut saved);
    let answers = list.iter().map(step).collect();
    let after = roles.into_iter().zip([jobs, projection, saved]);
    Called {
        answers,
        after: after.filter(|_| is_told).collect(),
    }
}

/// What a batch's admission and its steps read.
pub fn sources(desk: &Desk) -> Sources<'_> {
    Sources {
        frame: desk.part(Role::FRAME),
        present: desk.part(Role::PRESENT),
        fields: fields(desk),
        records: desk.part(Role::RECORDS),
    }
}

fn fields(desk: &Desk) -> [&[u8]; 7] {
    std::array::from_fn(|reference| desk.part(Role::field(reference)))
}

fn searched(desk: &Desk) -> Searched<'_> {
    Searched {
        frame: desk.part(Role::FRAME),
        tile: desk.part(Role::TILE),
        records: desk.part(Role::RECORDS),
        projection: desk.part(Role::PROJECTION),
    }
}

/// A number that doesn't fit becomes the largest, as in the program.
fn description<'a>(desk: &'a Desk, n: impl Fn(usize) -> usize) -> Description<'a> {
    let byte = |at| u8::try_from(n(at)).unwrap_or(u8::MAX);
    let word = |at| u32::try_from(n(at)).unwrap_or(u32::MAX);
    Description {
        width: n(1),
        height: n(2),
        sb128: byte(3),
        hint_bits: word(4),
        current_hint: word(5),
        hints: desk.part(Role::HINTS),
        hints_by_ref: desk.part(Role::HINTS_BY_REF),
        tile_rows: n(6),
        tile_threads: n(7),
        frame_threads: n(8),
        temporal: byte(9),
    }
}

fn row(n: impl Fn(usize) -> usize) -> Row {
    Row {
        col_start: n(1),
        col_end: n(2),
        row_start: n(3),
        row_end: n(4),
        superblock_row: n(5),
        tile_row: n(6),
        pass: n(7),
    }
}

fn block(n: impl Fn(usize) -> usize) -> Block {
    Block {
        y: n(1),
        x: n(2),
        width: n(3),
        height: n(4),
    }
}

fn window(n: impl Fn(usize) -> usize) -> Window {
    Window {
        tile_row: n(1),
        left: n(2),
        right: n(3),
        top: n(4),
        bottom: n(5),
    }
}

fn saving(n: impl Fn(usize) -> usize) -> Saving {
    Saving {
        superblock_row: n(6),
        pass: n(7),
        window: window(n),
    }
}
