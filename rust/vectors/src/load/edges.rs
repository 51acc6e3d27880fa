//! Landings at each edge of where a cell may land.

use crate::leaf::vector_bytes;
use crate::load::question::LoadQuestion;
use crate::question::FrameQuestion;
use oracle::leaves::Vector;
use oracle::Window;

pub fn questions() -> Vec<LoadQuestion> {
    let mut questions = Vec::new();
    for reference in [0, 4] {
        questions.extend(columns(reference));
        questions.extend(rows(reference));
        questions.extend(fractions(reference));
        questions.extend(sources(reference));
        questions.extend(overwritten(reference));
    }
    questions
}

pub fn window([col_start, col_end]: [u32; 2], [row_start, row_end]: [u32; 2]) -> Window {
    Window {
        tile_row: 0,
        col_start,
        col_end,
        row_start,
        row_end,
    }
}

/// A frame of 25 columns and 38 rows, whose rows have 32 cells. Only this reference is there, one
/// step away from the frame, and its cells with reference 1 refer to what is one step before it.
pub fn frame(reference: usize) -> FrameQuestion {
    FrameQuestion::sized(200, 300, [1; 3]).with(|frame| {
        let description = &mut frame.description;
        let own = if reference < 4 { 19 } else { 21 };
        description.hints[reference] = own;
        // Steps before it, of which -1 and 32 don't count. They are taken modulo 2^7.
        description.hints_by_ref[reference] =
            [1, 2, 0, -1, 7, 32, 31].map(|steps| (i32::from(own) - steps).rem_euclid(128) as u8);
        frame.present = std::array::from_fn(|i| u8::from(i == reference));
    })
}

/// A vector by which a cell of a reference is moved so many 64ths of a cell, with distance 1.
pub fn cell_moved(reference: usize, [y, x]: [i32; 2]) -> [u8; 5] {
    let sign = if reference < 4 { -1 } else { 1 };
    let [y, x] = [y, x].map(|by| (sign * by) as i16);
    cell(Vector { y, x }, 1)
}

pub fn cell(mv: Vector, reference: i8) -> [u8; 5] {
    let [y0, y1, x0, x1] = vector_bytes(mv);
    [y0, y1, x0, x1, reference as u8]
}

/// A load of cells that are moved from one place to another.
fn moving(
    reference: usize,
    window: Window,
    moves: impl IntoIterator<Item = ([i32; 2], [i32; 2])>,
) -> LoadQuestion {
    let mut question = LoadQuestion::new(frame(reference), window);
    for ([y, x], [to_y, to_x]) in moves {
        let moved = cell_moved(reference, [64 * (to_y - y), 64 * (to_x - x)]);
        question.put(reference as u32, [y as u32, x as u32], 1, moved);
    }
    question
}

/// From 8 columns before the own group to 8 after, and the window's columns.
fn columns(reference: usize) -> Vec<LoadQuestion> {
    let cases = [
        // The window's edges.
        ([8, 20], 12, [7, 8]),
        ([8, 20], 12, [19, 20]),
        ([3, 14], 5, [2, 3]),
        ([3, 14], 11, [13, 14]),
        ([0, 32], 3, [-1, 0]),
        ([0, 32], 24, [31, 32]),
        // The group's edges, 16 to 24 and 8 to 16.
        ([0, 32], 16, [7, 8]),
        ([0, 32], 23, [7, 8]),
        ([0, 32], 23, [31, 32]),
        ([0, 32], 15, [23, 24]),
        ([0, 32], 8, [-1, 0]),
        ([0, 32], 7, [15, 16]),
    ];
    cases
        .map(|(columns, x, [first, second])| {
            let moves = [([9, x], [9, first]), ([10, x], [10, second])];
            moving(reference, window(columns, [8, 16]), moves)
        })
        .to_vec()
}

/// The own 8-row group and the window's rows, also where they wrap.
fn rows(reference: usize) -> Vec<LoadQuestion> {
    let cases = [
        ([8, 24], 12, [7, 8]),
        ([8, 24], 12, [15, 16]),
        ([8, 24], 20, [15, 16]),
        ([8, 24], 20, [23, 24]),
        ([10, 22], 12, [9, 10]),
        ([10, 22], 20, [21, 22]),
        ([30, 46], 33, [31, 32]),
        ([30, 46], 35, [37, 38]),
        ([30, 46], 31, [30, 29]),
        ([0, 8], 1, [-1, 0]),
        ([17, 18], 17, [17, 18]),
        ([17, 18], 17, [16, 17]),
    ];
    cases
        .map(|(rows, y, [first, second])| {
            let moves = [([y, 9], [first, 9]), ([y, 10], [second, 10])];
            moving(reference, window([3, 20], rows), moves)
        })
        .to_vec()
}

/// Moves that come to a whole cell, and those that fall short of one.
fn fractions(reference: usize) -> Vec<LoadQuestion> {
    [63, 64, 127, 128, -63, -64, -127, -128]
        .map(|by| {
            let mut question = LoadQuestion::new(frame(reference), window([0, 25], [8, 16]));
            for (at, by) in [[by, 0], [0, by], [by, by], [by, -by]]
                .into_iter()
                .enumerate()
            {
                let moved = cell_moved(reference, by);
                question.put(reference as u32, [11, 5 * at as u32 + 2], 1, moved);
            }
            question
        })
        .to_vec()
}

/// Sources from 8 columns before the window to 8 after, and those beside them.
fn sources(reference: usize) -> Vec<LoadQuestion> {
    let cases = [
        ([9, 14], 1, 9),
        ([9, 14], 0, 9),
        ([9, 14], 21, 13),
        ([9, 14], 22, 13),
        ([16, 32], 8, 16),
        ([16, 32], 7, 15),
        ([12, 20], 24, 19),
        ([12, 20], 25, 19),
        ([0, 3], 10, 2),
    ];
    cases
        .map(|(columns, x, to)| {
            moving(
                reference,
                window(columns, [16, 32]),
                [([18, x], [18, to]), ([31, x], [31, to])],
            )
        })
        .to_vec()
}

/// Several cells that land in one place: along a row, and from one row to the next.
fn overwritten(reference: usize) -> Vec<LoadQuestion> {
    let window = window([0, 25], [8, 16]);
    let along = [[9, 3], [9, 5], [9, 7], [9, 10]];
    let down = [[8, 4], [9, 9], [12, 3], [15, 6]];
    [along, down]
        .map(|from| {
            let to = from.map(|from| (from, [10, 6]));
            moving(reference, window, to)
        })
        .to_vec()
}
