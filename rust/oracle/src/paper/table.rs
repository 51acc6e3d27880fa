//! The row table that superblock-row setup gives.

use super::frame::tile_row;
use crate::kept::FrameRecord;

/// A tile row has the rows of its superblock row, 32 of them for the larger size, and three above.
const ROWS: u64 = 35;

/// The entries that superblock-row setup gives on an empty table, for a well-formed frame record.
pub fn row_entries(
    record: &FrameRecord,
    tile_row_index: u32,
    superblock_row: u32,
    pass: u32,
) -> [Option<u64>; 37] {
    let row_len = 2 * u64::from(record.stride);
    let second = record.n_frame_threads > 1 && pass == 2;
    let first = ROWS * row_len * u64::from(tile_row(record, tile_row_index))
        + u64::from(second) * 2 * ROWS * u64::from(record.n_blocks);
    let odd = superblock_row % 2 == 1;
    std::array::from_fn(|at| Some(first + row_len * row_of(record.sbsz, odd, at as u32)?))
}

/// Which of the tile row's rows of records an entry is. Rows of the superblock come first, then the
/// three above it. In odd superblock rows these three and the last odd ones of the superblock change
/// places, so that an odd row has above it what the even one wrote.
fn row_of(superblock: u32, odd: bool, entry: u32) -> Option<u64> {
    // Entries count from the row of 128 samples; the second superblock of 64 starts in its middle.
    let above = if odd && superblock == 16 { 16 } else { 0 };
    let own = entry.checked_sub(above)?;
    let changed = match own {
        0 | 2 | 4 if odd => own + superblock,
        _ if odd && [0, 2, 4].contains(&own.wrapping_sub(superblock)) => own - superblock,
        _ => own,
    };
    match changed {
        0 | 2 | 4 => Some(u64::from(superblock + changed / 2)),
        5.. if changed < superblock + 5 => Some(u64::from(changed - 5)),
        _ => None,
    }
}
