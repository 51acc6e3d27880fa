//! Splat, and when a record is well formed.

use super::frame::record_answer;
use crate::asked::Block;
use crate::kept::listed_records;
use crate::kept::FrameRecord;
use crate::kept::RowTable;
use crate::kept::RECORD_LEN;

/// Splat: 1, then 10, then 4 for the listed size, then row by row 6 and 4.
pub fn splat_answer(
    record: &FrameRecord,
    table: &RowTable,
    block: &Block,
    bytes: [u8; 12],
    buffer_len: u64,
) -> u8 {
    if record_answer(record) != 0 {
        return 1;
    }
    if !block_is_fine(record, table, block) || !record_is_well_formed(bytes) {
        return 10;
    }
    let listed = listed_records(record);
    if buffer_len < RECORD_LEN * listed {
        return 4;
    }
    (0..block.height)
        .map(|y| row_answer(table, block, y, listed))
        .find(|&answer| answer != 0)
        .unwrap_or(0)
}

fn block_is_fine(record: &FrameRecord, table: &RowTable, block: &Block) -> bool {
    (1..=32).contains(&block.width)
        && (1..=32).contains(&block.height)
        && (table.col_start..table.col_end).contains(&block.bx4)
        && (table.row_start..table.row_end).contains(&block.by4)
        && table.col_end <= record.iw4
        && table.row_end <= record.ih4
        && u64::from(block.bx4) + u64::from(block.width) <= 2 * u64::from(record.stride)
}

/// "Bytes that are lent": size, mf, references, and the vectors whose reference is 1..7.
pub(super) fn record_is_well_formed(bytes: [u8; 12]) -> bool {
    let number = |at: usize| i16::from_le_bytes([bytes[at], bytes[at + 1]]);
    let [first, second] = [bytes[8] as i8, bytes[9] as i8];
    let vector_is_fine = |at: usize, reference: i8| {
        !(1..=7).contains(&reference)
            || [number(at), number(at + 2)]
                .iter()
                .all(|component| (-16_383..=16_383).contains(component))
    };
    bytes[10] <= 21
        && bytes[11] <= 3
        && (0..=7).contains(&first)
        && (-1..=7).contains(&second)
        && vector_is_fine(0, first)
        && vector_is_fine(4, second)
}

/// Row `y` of the block: its entry is needed, then each of its records.
fn row_answer(table: &RowTable, block: &Block, y: u32, listed: u64) -> u8 {
    let entry = (block.by4 & 31) + 5 + y;
    let Some(Some(offset)) = table.entries.get(entry as usize) else {
        return 6;
    };
    let end = u64::from(*offset) + u64::from(block.bx4) + u64::from(block.width);
    if end <= listed {
        0
    } else {
        4
    }
}
