//! Document 01's worked frame, which the tests share.

use jaskkovir::calls::Description;

/// 16 cells in a row, of which it has 8.
pub const WORKED: Description = Description {
    width: 64,
    height: 64,
    sb128: 0,
    hint_bits: 3,
    current_hint: 2,
    hints: &[1; 7],
    hints_by_ref: &[0; 49],
    tile_rows: 1,
    tile_threads: 1,
    frame_threads: 1,
    temporal: 1,
};
