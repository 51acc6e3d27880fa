//! Save.

use super::frame::record_answer;
use super::frame::window_is_fine;
use super::sizes::SIDES_OF;
use super::splat::record_is_well_formed;
use super::table::row_entries;
use crate::asked::SavePlace;
use crate::kept::listed_records;
use crate::kept::saved_cells;
use crate::kept::FrameRecord;
use crate::kept::CELL_LEN;
use crate::kept::RECORD_LEN;

/// Save: 12, 1, 3, then 4 for the listed sizes, then read by read 6, 4, 8 and 9.
pub fn save_answer(record: &FrameRecord, place: &SavePlace, records: &[u8], field_len: u64) -> u8 {
    if ![1, 2].contains(&place.pass) {
        return 12;
    }
    if record_answer(record) != 0 {
        return 1;
    }
    if !window_is_fine(record, &place.window) {
        return 3;
    }
    let short = (records.len() as u64) < RECORD_LEN * listed_records(record);
    if short || field_len < CELL_LEN * saved_cells(record) {
        return 4;
    }
    let reads = Reads::new(record, place, records);
    (place.window.row_start..place.window.row_end.min(record.ih8))
        .find_map(|y| reads.row(y).err())
        .unwrap_or(0)
}

/// What a save reads, its window cut.
struct Reads<'a> {
    entries: [Option<u64>; 37],
    col_start: u32,
    col_end: u32,
    /// Where a block must have ended.
    limit: u32,
    listed: u64,
    records: &'a [u8],
}

impl<'a> Reads<'a> {
    fn new(record: &FrameRecord, place: &SavePlace, records: &'a [u8]) -> Self {
        let window = &place.window;
        let col_end = window.col_end.min(record.iw8);
        Self {
            entries: row_entries(record, window.tile_row, place.superblock_row, place.pass),
            col_start: window.col_start,
            col_end,
            limit: if col_end < record.iw8 {
                col_end
            } else {
                record.stride
            },
            listed: listed_records(record),
            records,
        }
    }

    fn row(&self, y: u32) -> Result<(), u8> {
        let mut x = self.col_start;
        while x < self.col_end {
            x = self.block_end(y, x)?;
        }
        Ok(())
    }

    /// The column after the block that is read for cell (y, x).
    fn block_end(&self, y: u32, x: u32) -> Result<u32, u8> {
        let entry = self.entries[6 + 2 * (y as usize % 16)].ok_or(6)?;
        let at = entry + 2 * u64::from(x) + 1;
        if at >= self.listed {
            return Err(4);
        }
        let (whole, _) = self.records.as_chunks::<{ RECORD_LEN as usize }>();
        let bytes = whole[at as usize];
        if !record_is_well_formed(bytes) {
            return Err(8);
        }
        let [width, _] = SIDES_OF[usize::from(bytes[10])];
        let end = x + width.div_ceil(2);
        if end <= self.limit {
            Ok(end)
        } else {
            Err(9)
        }
    }
}
