//! Document 01's save, cell by cell.

use crate::save::block;
use crate::save::question::SaveQuestion;
use oracle::leaves;

pub fn saved(question: &SaveQuestion, lent: Vec<u8>) -> Vec<u8> {
    let record = question.frame.record().unwrap();
    let place = &question.place;
    let entries = oracle::paper::row_entries(
        &record,
        place.window.tile_row,
        place.superblock_row,
        place.pass,
    );
    let records = question.records();
    let records = records.as_chunks::<12>().0;
    let (rows, columns, _) = question.walked();
    let mut field = lent;
    for y in rows {
        let mut x = columns.start;
        while x < columns.end {
            let entry = entries[6 + 2 * (y as usize % 16)].unwrap();
            let read = records[entry as usize + 2 * x as usize + 1];
            let width = block::width(read[10]);
            let cell = cell(read, |reference| record.hints[reference - 1].mfmv_sign == 1);
            let first = 5 * (y * record.stride + x) as usize;
            field[first..first + 5 * width as usize].copy_from_slice(&cell.repeat(width as usize));
            x += width;
        }
    }
    field
}

fn cell(record: [u8; 12], is_behind: impl Fn(usize) -> bool) -> [u8; 5] {
    let fields = leaves::record(record).unwrap();
    for which in [1, 0] {
        let (mv, reference) = (fields.mv[which], fields.reference[which]);
        let small = |component: i16| component.unsigned_abs() <= 4095;
        if reference > 0 && is_behind(reference as usize) && small(mv.y) && small(mv.x) {
            let at = 4 * which;
            let [y0, y1, x0, x1] = record[at..at + 4].try_into().unwrap();
            return [y0, y1, x0, x1, reference as u8];
        }
    }
    [0; 5]
}
