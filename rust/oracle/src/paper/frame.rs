//! Frame setup, the check of a finished record, superblock-row setup and the window of a load or save.

use crate::asked::RowPlace;
use crate::frame::Description;
use crate::kept::FrameRecord;
use crate::kept::HintFields;
use crate::kept::Slot;
use crate::Window;
use std::ops::RangeInclusive;

const SIDES: RangeInclusive<u32> = 1..=16_384;
const TILE_ROWS: RangeInclusive<u32> = 1..=64;
const THREADS: RangeInclusive<u32> = 1..=255;
pub(super) const FLAG: RangeInclusive<u8> = 0..=1;

/// The references that setup may select.
const SELECTABLE: [u8; 5] = [0, 1, 4, 5, 6];

/// Frame setup: 1, then 2. The present bytes are flags too.
pub fn setup_answer(description: &Description, present: [u8; 7]) -> u8 {
    if !sizes_are_fine(description) || present.iter().any(|flag| !FLAG.contains(flag)) {
        1
    } else if !hints_are_fine(description) {
        2
    } else {
        0
    }
}

fn sizes_are_fine(description: &Description) -> bool {
    SIDES.contains(&description.width)
        && SIDES.contains(&description.height)
        && TILE_ROWS.contains(&description.tile_rows)
        && THREADS.contains(&description.tile_threads)
        && THREADS.contains(&description.frame_threads)
        && description.sb128 <= 1
        && description.temporal <= 1
}

/// All 57 hints count, used or not.
fn hints_are_fine(description: &Description) -> bool {
    let own = description.hints.iter();
    let by_ref = description.hints_by_ref.iter().flatten();
    let below = |limit: u32| {
        description.current_hint < limit && own.chain(by_ref).all(|&hint| u32::from(hint) < limit)
    };
    description.hint_bits <= 8 && below(1 << description.hint_bits)
}

/// A finished frame record: 1 where a size doesn't follow, or a field is out of setup's range. Each
/// field is judged alone: setup need not be able to give them all at once.
pub fn record_answer(record: &FrameRecord) -> u8 {
    let fine = frame_sizes_follow(record)
        && [record.use_ref_frame_mvs, record.temporal]
            .iter()
            .all(|flag| FLAG.contains(flag))
        && record.n_mfmvs <= 3
        && record.hints.iter().all(hint_fields_are_fine)
        && record.slots.iter().all(slot_is_fine);
    u8::from(!fine)
}

fn frame_sizes_follow(record: &FrameRecord) -> bool {
    let tile_rows_apart = if record.n_tile_threads > 1 {
        record.tile_rows
    } else {
        1
    };
    SIDES.contains(&record.width)
        && SIDES.contains(&record.height)
        && TILE_ROWS.contains(&record.tile_rows)
        && THREADS.contains(&record.n_tile_threads)
        && THREADS.contains(&record.n_frame_threads)
        && record.iw8 == record.width.div_ceil(8)
        && record.ih8 == record.height.div_ceil(8)
        && record.iw4 == 2 * record.iw8
        && record.ih4 == 2 * record.ih8
        && [16, 32].contains(&record.sbsz)
        && record.stride == record.width.div_ceil(128) * 128 / 8
        && record.n_blocks == record.stride * tile_rows_apart
}

fn hint_fields_are_fine(fields: &HintFields) -> bool {
    FLAG.contains(&fields.sign_bias)
        && FLAG.contains(&fields.mfmv_sign)
        && (-31..=31).contains(&fields.pocdiff)
}

fn slot_is_fine(slot: &Slot) -> bool {
    SELECTABLE.contains(&slot.reference)
        && slot
            .ref2cur
            .is_none_or(|distance| (-31..=31).contains(&distance))
        && slot.ref2ref.iter().all(|&distance| distance <= 31)
}

/// Superblock-row setup: 12, then 1, then 3. The ends are judged before they are cut.
pub fn rows_answer(record: &FrameRecord, place: &RowPlace) -> u8 {
    if ![1, 2].contains(&place.pass) {
        return 12;
    }
    if record_answer(record) != 0 {
        return 1;
    }
    let fine = place.col_start <= place.col_end
        && place.row_start <= place.row_end
        && tile_row(record, place.tile_row) < record.tile_rows;
    if fine {
        0
    } else {
        3
    }
}

/// With one tile thread any tile row is taken as the first.
pub(super) fn tile_row(record: &FrameRecord, index: u32) -> u32 {
    if record.n_tile_threads == 1 {
        0
    } else {
        index
    }
}

/// Refusal 3 of a load or save. Rows are counted before the cut.
pub(super) fn window_is_fine(record: &FrameRecord, window: &Window) -> bool {
    window.col_start <= window.col_end
        && window.col_end <= record.stride
        && window.row_start <= window.row_end
        && window.row_end - window.row_start <= 16
        && tile_row(record, window.tile_row) < record.tile_rows
}
