//! Superblock rows at the limits of what is accepted.

use crate::damage::Damage;
use crate::question::FrameQuestion;
use crate::row::RowQuestion;

/// Each limit of a row's numbers with its neighbours; those inside it are accepted.
pub fn questions() -> Vec<RowQuestion> {
    let base = RowQuestion::first_of(FrameQuestion::BASE);
    let mut questions = passes(base);
    questions.extend(ends(base));
    questions.extend(tile_rows());
    questions.extend(Damage::FIELDS.map(|field| ruined(base, field)));
    questions.extend(orders(base));
    questions
}

fn passes(base: RowQuestion) -> Vec<RowQuestion> {
    [0, 1, 2, 3, 255, 256, 257, 258, u32::MAX]
        .map(|pass| base.with(|question| question.place.pass = pass))
        .to_vec()
}

/// Ends before, at and after their starts. The frame ends at column 50 and row 26; an end is judged
/// before it is cut.
fn ends(base: RowQuestion) -> Vec<RowQuestion> {
    let bounds = [
        [1, 0],
        [0, 1],
        [5, 4],
        [5, 5],
        [5, 6],
        [50, 49],
        [60, 59],
        [60, 60],
        [60, 61],
        [u32::MAX, 0],
        [u32::MAX, u32::MAX - 1],
    ];
    let mut questions = Vec::new();
    for [start, end] in bounds {
        questions.push(base.with(|question| {
            [question.place.col_start, question.place.col_end] = [start, end];
        }));
        questions.push(base.with(|question| {
            [question.place.row_start, question.place.row_end] = [start, end];
        }));
    }
    questions
}

/// With one tile thread any tile row is taken as the first.
fn tile_rows() -> Vec<RowQuestion> {
    let mut questions = Vec::new();
    for rows in [1, 2, 64] {
        for threads in [1, 2, 255] {
            let base = RowQuestion::first_of(FrameQuestion::sized(200, 100, [rows, threads, 1]));
            questions.extend(
                [rows - 1, rows, rows + 1, i32::MAX as u32]
                    .map(|tile_row| base.with(|question| question.place.tile_row = tile_row)),
            );
        }
        let base = RowQuestion::first_of(FrameQuestion::sized(200, 100, [rows, 2, 1]));
        questions.push(base.with(|question| question.place.tile_row = u32::MAX));
    }
    questions
}

fn ruined(base: RowQuestion, field: u32) -> RowQuestion {
    base.with(|question| question.damage = Damage::ruin(field))
}

/// 12 before 1 before 3.
fn orders(base: RowQuestion) -> Vec<RowQuestion> {
    let backwards = base.with(|question| question.place.col_start = question.place.col_end + 1);
    let mut questions = vec![backwards.with(|question| question.place.pass = 0)];
    for field in [1, 7, 15, 18, 63] {
        questions.push(ruined(backwards, field));
        questions.push(ruined(base, field).with(|question| question.place.pass = 3));
        questions.push(ruined(backwards, field).with(|question| question.place.pass = 3));
    }
    questions
}
