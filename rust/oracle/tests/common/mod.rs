//! What several tests of the paper start from.

use oracle::paper::FrameRecord;
use oracle::paper::HintFields;
use oracle::paper::Slot;

/// 200 x 300 samples with superblocks of 64, one thread each way, no reference selected: 2,241
/// records, 1,216 cells.
pub const RECORD: FrameRecord = FrameRecord {
    width: 200,
    height: 300,
    iw4: 50,
    ih4: 76,
    iw8: 25,
    ih8: 38,
    sbsz: 16,
    stride: 32,
    tile_rows: 3,
    n_blocks: 32,
    n_tile_threads: 1,
    n_frame_threads: 1,
    use_ref_frame_mvs: 0,
    temporal: 0,
    n_mfmvs: 0,
    hints: [HintFields {
        sign_bias: 0,
        mfmv_sign: 0,
        pocdiff: 0,
    }; 7],
    slots: [Slot {
        reference: 0,
        ref2cur: Some(0),
        ref2ref: [0; 7],
    }; 3],
};
