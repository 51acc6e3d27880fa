//! Load.

use super::frame::record_answer;
use super::frame::window_is_fine;
use super::frame::FLAG;
use crate::kept::saved_cells;
use crate::kept::FrameRecord;
use crate::kept::CELL_LEN;
use crate::Window;

/// Load: 1, 3, then 4 for the listed sizes, then 5, then read by read 7. A reference whose present
/// byte is 0 lends nothing, whatever stands beside it.
pub fn load_answer(
    record: &FrameRecord,
    window: &Window,
    present: [u8; 7],
    fields: [&[u8]; 7],
    projection_len: u64,
) -> u8 {
    if record_answer(record) != 0 || present.iter().any(|flag| !FLAG.contains(flag)) {
        return 1;
    }
    if !window_is_fine(record, window) {
        return 3;
    }
    let used = used(record);
    let listed = CELL_LEN * saved_cells(record);
    let short = |&at: &usize| present[at] == 1 && (fields[at].len() as u64) < listed;
    if projection_len < CELL_LEN * 16 * u64::from(record.n_blocks) || used.iter().any(short) {
        return 4;
    }
    if used.iter().any(|&at| present[at] == 0) {
        return 5;
    }
    let fine = |&at: &usize| sources_are_fine(record, window, fields[at]);
    if used.iter().all(fine) {
        0
    } else {
        7
    }
}

/// The references that are selected and not skipped, in order.
pub(super) fn used(record: &FrameRecord) -> Vec<usize> {
    record.slots[..record.n_mfmvs.into()]
        .iter()
        .filter(|slot| slot.ref2cur.is_some())
        .map(|slot| slot.reference.into())
        .collect()
}

/// Sources run from 8 columns before the window to 8 after, inside the frame.
pub(super) fn sources_are_fine(record: &FrameRecord, window: &Window, field: &[u8]) -> bool {
    let (cells, _) = field.as_chunks::<{ CELL_LEN as usize }>();
    let columns = window.col_start.saturating_sub(8)..(window.col_end + 8).min(record.iw8);
    (window.row_start..window.row_end.min(record.ih8)).all(|y| {
        columns
            .clone()
            .all(|x| cell_is_well_formed(cells[(y * record.stride + x) as usize]))
    })
}

/// "Bytes that are lent": a saved cell.
fn cell_is_well_formed([y0, y1, x0, x1, reference]: [u8; 5]) -> bool {
    let within = |low, high| i16::from_le_bytes([low, high]).unsigned_abs() <= 4095;
    reference == 0 || ((1..=7).contains(&reference) && within(y0, y1) && within(x0, x1))
}
