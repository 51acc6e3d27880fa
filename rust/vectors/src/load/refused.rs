//! Loads at the limits of what is accepted.

use crate::damage::Damage;
use crate::limits::COLUMNS;
use crate::limits::ROWS;
use crate::limits::TILE_ROWS;
use crate::load::edges::cell;
use crate::load::edges::window;
use crate::load::question::FieldLen;
use crate::load::question::LoadQuestion;
use crate::question::FrameQuestion;
use oracle::leaves::Vector;

/// Fields of the frame's record that are ruined: a few of each kind.
const RUINED: [u32; 12] = [1, 2, 6, 7, 8, 10, 11, 14, 15, 18, 37, 54];

/// Each limit of a load with its neighbours; those inside it are accepted.
pub fn questions() -> Vec<LoadQuestion> {
    let mut questions = RUINED.map(ruined).to_vec();
    questions.extend(flags());
    questions.extend(rows_and_columns());
    questions.extend(tile_rows());
    questions.extend(buffers());
    questions.extend(absent());
    questions.extend(cells());
    questions.extend(places());
    questions.extend(orders());
    questions
}

/// A frame of 25 columns and 38 rows, whose rows have 32 cells; references 0, 4 and 5 are used.
fn base() -> LoadQuestion {
    let frame = FrameQuestion::sized(200, 300, [1; 3]);
    LoadQuestion::new(frame, window([9, 14], [10, 20]))
}

fn at(question: LoadQuestion, columns: [u32; 2], rows: [u32; 2]) -> LoadQuestion {
    question.with(|question| question.window = window(columns, rows))
}

fn ruined(field: u32) -> LoadQuestion {
    base().with(|question| question.damage = Damage::ruin(field))
}

/// Each reference's present byte, used or not.
fn flags() -> Vec<LoadQuestion> {
    let mut questions: Vec<_> = (0..7)
        .map(|reference| base().with(|question| question.present[reference] = 2))
        .collect();
    questions.push(base().with(|question| question.present[4] = 255));
    questions
}

/// 16 rows and 17, cut or not; ends before their starts; the stride and one past it.
fn rows_and_columns() -> Vec<LoadQuestion> {
    let mut questions = Vec::new();
    questions.extend(ROWS.map(|rows| at(base(), [9, 14], rows)));
    questions.extend(COLUMNS.map(|columns| at(base(), columns, [10, 20])));
    questions
}

/// With one tile thread any tile row is taken as the first.
fn tile_rows() -> Vec<LoadQuestion> {
    let mut questions = Vec::new();
    for (threads, tile_rows) in TILE_ROWS {
        let frame = FrameQuestion::sized(200, 300, [2, threads, 1]);
        let question = LoadQuestion::new(frame, base().window);
        questions.extend(
            tile_rows
                .iter()
                .map(|&tile_row| question.with(|question| question.window.tile_row = tile_row)),
        );
    }
    questions
}

/// Buffers a byte short, also where no row is loaded.
fn buffers() -> Vec<LoadQuestion> {
    let none = at(base(), [9, 9], [40, 40]);
    let tiled = LoadQuestion::new(FrameQuestion::sized(200, 300, [9, 2, 1]), base().window);
    let mut questions = Vec::new();
    for question in [base(), none, tiled] {
        let short = |field| {
            let len = question.listed() - 1;
            question.with(|question| question.field = FieldLen { field, len })
        };
        questions.extend([0, 1, 5].map(short));
        questions.push(question.with(|question| question.projection_len -= 1));
    }
    questions.push(base().with(|question| question.projection_len = 0));
    questions.push(base().with(|question| {
        question.field = FieldLen { field: 4, len: 0 };
    }));
    questions
}

/// Each reference alone isn't lent.
fn absent() -> Vec<LoadQuestion> {
    let mut questions: Vec<_> = (0..7)
        .map(|reference| base().with(|question| question.present[reference] = 0))
        .collect();
    questions.push(at(questions[0].clone(), [9, 9], [40, 40]));
    questions
}

/// Cells at the limits of what is well formed, at the last read.
fn cells() -> Vec<LoadQuestion> {
    let components = [
        [4095, -4095],
        [-4095, 4095],
        [4096, 0],
        [0, 4096],
        [-4096, 0],
        [0, -4096],
        [i16::MIN, i16::MIN],
    ];
    let with = |[y, x]: [i16; 2], reference| {
        base().with(|question| question.put(5, [19, 21], 1, cell(Vector { y, x }, reference)))
    };
    let mut questions: Vec<_> = components.map(|mv| with(mv, 7)).to_vec();
    questions.extend([[4096, 0], [i16::MIN; 2]].map(|mv| with(mv, 0)));
    questions.extend([1, 8, -1, i8::MIN, i8::MAX].map(|reference| with([0, 0], reference)));
    questions
}

/// A cell that isn't well formed at the edges of what is read, and beside them.
fn places() -> Vec<LoadQuestion> {
    let bad = cell(Vector { y: 0, x: 0 }, 8);
    let base = at(base(), [9, 14], [10, 20]);
    let wide = at(base.clone(), [14, 32], [30, 46]);
    let with = |question: &LoadQuestion, field, place| {
        question.with(|question| question.put(field, place, 1, bad))
    };
    let mut questions: Vec<_> = [[10, 1], [10, 0], [19, 21], [19, 22], [9, 9], [20, 9]]
        .map(|place| with(&base, 0, place))
        .to_vec();
    questions.extend([[37, 24], [37, 25], [30, 6], [30, 5]].map(|place| with(&wide, 4, place)));
    questions.extend([1, 4, 5, 6].map(|field| with(&base, field, [15, 9])));
    questions
}

/// 1 before 3 before 4 before 5 before 7.
fn orders() -> Vec<LoadQuestion> {
    let bad = base().with(|question| question.put(0, [10, 9], 1, cell(Vector { y: 0, x: 0 }, 8)));
    let absent = bad.with(|question| question.present[5] = 0);
    let short = absent.with(|question| question.projection_len -= 1);
    let field = absent.with(|question| {
        let len = question.listed() - 1;
        question.field = FieldLen { field: 4, len };
    });
    // A field that isn't lent isn't short.
    let both = absent.with(|question| question.field = FieldLen { field: 5, len: 0 });
    let backwards = short.with(|question| question.window.row_end = 0);
    let damaged = backwards.with(|question| question.damage = Damage::ruin(9));
    let flag = backwards.with(|question| question.present[2] = 2);
    vec![bad, absent, short, field, both, backwards, damaged, flag]
}
