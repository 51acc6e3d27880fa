//! Loads that are accepted.

use crate::load::edges::cell;
use crate::load::edges::frame;
use crate::load::edges::window;
use crate::load::question::FieldLen;
use crate::load::question::LoadQuestion;
use crate::load::question::MOST_FIELD;
use crate::load::question::MOST_PROJECTION;
use crate::question::FrameQuestion;
use crate::split_mix::SplitMix64;
use oracle::leaves::Vector;

/// Width, height, and tile rows, tile threads, frame threads.
const FRAMES: [(u32, u32, [u32; 3]); 13] = [
    (8, 8, [1, 1, 1]),
    (64, 64, [1, 1, 1]),
    (64, 256, [2, 1, 1]),
    (100, 60, [1, 1, 2]),
    (127, 300, [4, 2, 1]),
    (129, 128, [1, 255, 1]),
    (200, 300, [1, 1, 1]),
    (200, 300, [9, 3, 2]),
    (250, 500, [64, 1, 1]),
    (300, 200, [10, 2, 1]),
    (390, 130, [2, 2, 2]),
    (560, 240, [1, 1, 1]),
    (560, 239, [6, 2, 1]),
];

/// The most runs of cells that a case has.
const RUNS: usize = 24;

/// How far from the frame a reference may be, most of them near.
const STEPS: [i32; 8] = [1, 1, 2, 3, 5, 31, 32, 0];

pub fn questions(random: &mut SplitMix64) -> Vec<LoadQuestion> {
    let mut questions = windows();
    questions.extend(lengths());
    questions.extend(sources_unused());
    questions.extend((0..12).map(|i| all_different(i, random)));
    questions.extend((0..150).map(|i| any(i, random)));
    questions
}

/// Windows that aren't aligned, are empty, wrap, or pass the frame, which has 25 columns of 32 and
/// 38 rows. Each row has a cell that stays where it is.
fn windows() -> Vec<LoadQuestion> {
    let windows = [
        ([0, 25], [0, 16]),
        ([0, 24], [8, 24]),
        ([0, 32], [13, 22]),
        ([5, 6], [37, 53]),
        ([7, 25], [36, 38]),
        ([24, 25], [31, 33]),
        ([25, 32], [0, 2]),
        ([26, 30], [0, 2]),
        ([32, 32], [0, 2]),
        ([9, 9], [0, 2]),
        ([3, 17], [15, 17]),
        ([3, 17], [7, 7]),
        ([3, 17], [38, 38]),
        ([3, 17], [38, 54]),
        ([3, 17], [39, 40]),
        ([3, 17], [100, 116]),
        ([3, 17], [i32::MAX as u32; 2]),
    ];
    windows
        .map(|(columns, rows)| {
            let mut question = LoadQuestion::new(frame(0), window(columns, rows));
            let stays = cell(Vector { y: 63, x: -63 }, 1);
            question.put(0, [0, 0], 32 * 38, stays);
            question
        })
        .to_vec()
}

/// Buffers that are longer than listed, and don't hold whole cells.
fn lengths() -> Vec<LoadQuestion> {
    let mut question = LoadQuestion::new(frame(0), window([0, 25], [30, 38]));
    question.put(0, [37, 0], 25, cell(Vector { y: 0, x: 64 }, 1));
    let listed = question.listed();
    let field = |len| {
        question.with(|question| {
            question.field = FieldLen { field: 0, len };
        })
    };
    let projection = |more| question.with(|question| question.projection_len += more);
    let most = question.with(|question| question.projection_len = MOST_PROJECTION);
    let mut questions = [0, 1, 4, 5, 7].map(|more| field(listed + more)).to_vec();
    questions.extend([1, 4, 5, 7].map(projection));
    questions.extend([field(MOST_FIELD), most]);
    questions
}

/// Fields of references that aren't used may be absent, short, or hold anything.
fn sources_unused() -> Vec<LoadQuestion> {
    let mut question = LoadQuestion::new(FrameQuestion::BASE, window([0, 25], [0, 8]));
    for used in [0, 4, 5] {
        question.put(used, [3, 3], 4, cell(Vector { y: 0, x: 0 }, 1));
    }
    let bad = cell(Vector { y: 4096, x: 0 }, -1);
    let far = FrameQuestion::BASE.with(|frame| frame.description.hints[4] = 20 + 33);
    let unsearched = FrameQuestion::BASE.with(|frame| frame.description.temporal = 0);
    let mut questions = Vec::new();
    questions.push(question.with(|question| question.present = [1, 0, 0, 0, 1, 1, 0]));
    questions.push(question.with(|question| question.put(1, [0, 0], 400, bad)));
    questions.push(question.with(|question| {
        question.field = FieldLen { field: 6, len: 0 };
    }));
    // Reference 4 is selected and skipped.
    let skipped = question.with(|question| question.frame = far);
    questions.push(skipped.clone());
    questions.push(skipped.with(|question| question.present[4] = 0));
    questions.push(skipped.with(|question| question.put(4, [0, 0], 400, bad)));
    questions.push(skipped.with(|question| {
        question.field = FieldLen { field: 4, len: 4 };
    }));
    // The only one selected is skipped at distance 32, and used at 31.
    questions.extend([32, 31].map(|distance| {
        let alone = frame(4).with(|frame| frame.description.hints[4] = 20 + distance);
        question.with(|question| question.frame = alone)
    }));
    // None is selected.
    questions.push(question.with(|question| {
        question.frame = unsearched;
        question.present = [0; 7];
    }));
    questions
}

/// A row of cells of which no two neighbours are the same.
fn all_different(i: usize, random: &mut SplitMix64) -> LoadQuestion {
    let reference = [0, 4][i % 2];
    let row = random.within(8, 23) as u32;
    let mut question = LoadQuestion::new(frame(reference), window([2, 25], [8, 24]));
    for x in 1..25 {
        let cell = any_cell(random, x as i8 % 7 + 1);
        question.put(reference as u32, [row, x], 1, cell);
    }
    question
}

fn any(i: usize, random: &mut SplitMix64) -> LoadQuestion {
    let (width, height, counts) = FRAMES[i % FRAMES.len()];
    let frame = any_hints(FrameQuestion::sized(width, height, counts), random);
    let (columns, rows) = (width.div_ceil(8), height.div_ceil(8));
    let stride = 16 * width.div_ceil(128);
    let mut below = |bound: u32| random.below(bound as usize) as u32;
    let start = below(columns);
    let across = match below(4) {
        0 => [0, stride],
        1 => [0, columns],
        2 => [start & !7, stride.min((start & !7) + 8 + 8 * below(4))],
        _ => [start, start + 1 + below(stride - start)],
    };
    let top = below(rows);
    let down = match below(3) {
        0 => [top & !7, (top & !7) + 16],
        1 => [top, top + 16],
        _ => [top, top + 1 + below(16)],
    };
    let mut question = LoadQuestion::new(frame, window(across, down));
    question.window.tile_row = below(counts[0]);
    with_cells(question, random)
}

/// References behind and ahead, near and far; each has cells that refer to frames before it.
fn any_hints(frame: FrameQuestion, random: &mut SplitMix64) -> FrameQuestion {
    let mut present = [1; 7];
    for _ in 0..random.below(3) {
        present[random.below(7)] = 0;
    }
    let hint = |hint: i32| hint.rem_euclid(256) as u8;
    frame.with(|frame| {
        frame.present = present;
        let description = &mut frame.description;
        description.hint_bits = 8;
        let current = random.below(256) as i32;
        description.current_hint = current as u32;
        for reference in 0..7 {
            let step = STEPS[random.below(STEPS.len())];
            // Few of those that are mostly behind are ahead, and the other way round.
            let ahead = (reference < 4) == (random.below(6) == 0);
            let own = current + if ahead { step } else { -step };
            description.hints[reference] = hint(own);
            description.hints_by_ref[reference] =
                std::array::from_fn(|_| hint(own - [1, 1, 2, 3, 4, 7, 31, 0][random.below(8)]));
        }
    })
}

/// Runs of cells in the used references' fields, in and around the window.
fn with_cells(mut question: LoadQuestion, random: &mut SplitMix64) -> LoadQuestion {
    let record = question.frame.record().expect("a load's frame is accepted");
    let used = &record.slots[..record.n_mfmvs.into()];
    let window = question.window;
    let rows = window.row_end.min(record.ih8) - window.row_start;
    let columns = window.col_start.saturating_sub(8)..(window.col_end + 8).min(record.iw8);
    for _ in 0..if used.is_empty() { 0 } else { RUNS } {
        let slot = used[random.below(used.len())];
        let y = window.row_start + random.below(rows as usize) as u32;
        let x = columns.start + random.below(columns.len()) as u32;
        let most = [1, 2, 6, 20][random.below(4)];
        let count = (1 + random.below(most) as u32).min(columns.end - x);
        let reference = random.within(1, 7) as i8;
        let cell = any_cell(random, reference);
        question.put(slot.reference.into(), [y, x], count, cell);
    }
    question
}

/// A saved cell. Most vectors are short, so that it may land.
fn any_cell(random: &mut SplitMix64, reference: i8) -> [u8; 5] {
    let [y, x] = match random.below(12) {
        0 => [4095, -4095],
        1 => [random.component(4095), random.component(4095)],
        2 => [0, 0],
        3..6 => [random.component(63), random.component(1200)],
        _ => [random.component(300), random.component(700)],
    };
    cell(Vector { y, x }, reference)
}
