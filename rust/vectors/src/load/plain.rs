//! Document 01's load, cell by cell.

use crate::load::question::LoadQuestion;
use oracle::leaves;
use oracle::paper::Slot;
use std::ops::Range;

/// Where a cell of a used reference lands.
#[derive(Clone, Copy)]
pub struct Landing {
    pub source: [i32; 2],
    /// Row and column, before the row is taken modulo 16.
    pub target: [i32; 2],
    pub cell: [u8; 5],
    pub inside: bool,
}

pub fn loaded(question: &LoadQuestion, lent: Vec<u8>) -> Vec<u8> {
    let record = question.frame.record().unwrap();
    let window = &question.window;
    let tile_row = if record.n_tile_threads == 1 {
        0
    } else {
        window.tile_row
    };
    let place = |[y, x]: [i32; 2]| {
        let row = 16 * tile_row + y as u32 % 16;
        5 * (row * record.stride + x as u32) as usize
    };
    let mut projection = lent;
    for y in rows(question) {
        for x in window.col_start as i32..window.col_end as i32 {
            let at = place([y, x]);
            projection[at..at + 4].copy_from_slice(&[0, 128, 0, 128]);
        }
    }
    for landing in landings(question).iter().filter(|landing| landing.inside) {
        let at = place(landing.target);
        projection[at..at + 5].copy_from_slice(&landing.cell);
    }
    projection
}

fn rows(question: &LoadQuestion) -> Range<i32> {
    let rows = question.frame.record().unwrap().ih8;
    question.window.row_start as i32..question.window.row_end.min(rows) as i32
}

/// Each projected cell, in order.
pub fn landings(question: &LoadQuestion) -> Vec<Landing> {
    let record = question.frame.record().unwrap();
    let fields = question.fields();
    let window = &question.window;
    let columns = window.col_start.saturating_sub(8)..(window.col_end + 8).min(record.iw8);
    let mut landings = Vec::new();
    for slot in &record.slots[..record.n_mfmvs.into()] {
        let Some(ref2cur) = slot.ref2cur else {
            continue;
        };
        let field = fields[usize::from(slot.reference)].as_chunks::<5>().0;
        for y in rows(question) {
            for x in columns.clone() {
                let cell = field[(y as u32 * record.stride + x) as usize];
                landings.extend(landing(question, slot, ref2cur, [y, x as i32], cell));
            }
        }
    }
    landings
}

fn landing(
    question: &LoadQuestion,
    slot: &Slot,
    ref2cur: i8,
    [y, x]: [i32; 2],
    cell: [u8; 5],
) -> Option<Landing> {
    let leaves::Cell { mv, reference } = leaves::cell(cell);
    let distance = *slot.ref2ref.get((reference - 1) as usize)?;
    if distance == 0 {
        return None;
    }
    let offset = leaves::project(mv.y, mv.x, ref2cur.into(), distance.into())
        .gave()
        .unwrap();
    let moved = |from: i32, by: i16| {
        let cells = i32::from(by.unsigned_abs() >> 6);
        let ahead = (by >= 0) == (slot.reference >= 4);
        from + if ahead { cells } else { -cells }
    };
    let target = [moved(y, offset.y), moved(x, offset.x)];
    let window = &question.window;
    let rows = rows(question);
    let columns = window.col_start as i32..window.col_end as i32;
    let [y_group, x_group] = [y & !7, x & !7];
    let inside = (y_group..y_group + 8).contains(&target[0])
        && rows.contains(&target[0])
        && (x_group - 8..x_group + 16).contains(&target[1])
        && columns.contains(&target[1]);
    let [y0, y1, x0, x1, _] = cell;
    Some(Landing {
        source: [y, x],
        target,
        cell: [y0, y1, x0, x1, distance],
        inside,
    })
}
