//! The port's frame record from the Rust's, and the Rust's from the port's.

use crate::frame::Description;
use crate::frame::Finished;
use crate::kept;
use crate::kept::FrameRecord;
use crate::kept::HintFields;
use crate::kept::Slot;
use crate::src::refmvs::RefMvsFrame;
use std::array;
use std::fmt::Debug;
use zerocopy::FromZeroes;

/// The port's record: the Rust's, and the numbers of the description that the Rust's doesn't keep.
pub fn frame_record(description: &Description, finished: &Finished) -> FrameRecord {
    FrameRecord {
        width: description.width,
        height: description.height,
        iw4: fit(finished.iw4),
        ih4: fit(finished.ih4),
        iw8: fit(finished.iw8),
        ih8: fit(finished.ih8),
        sbsz: fit(finished.sbsz),
        stride: finished.rp_stride,
        tile_rows: description.tile_rows,
        n_blocks: finished.n_blocks,
        n_tile_threads: finished.n_tile_threads,
        n_frame_threads: finished.n_frame_threads,
        use_ref_frame_mvs: fit(finished.use_ref_frame_mvs),
        temporal: fit(description.temporal),
        n_mfmvs: fit(finished.n_mfmvs),
        hints: array::from_fn(|i| HintFields {
            sign_bias: finished.sign_bias[i],
            mfmv_sign: finished.mfmv_sign[i],
            pocdiff: finished.pocdiff[i],
        }),
        slots: array::from_fn(|n| Slot {
            reference: finished.mfmv_ref[n],
            ref2cur: finished.mfmv_ref2cur[n].map(fit),
            ref2ref: finished.mfmv_ref2ref[n].map(fit),
        }),
    }
}

/// The Rust's frame with the fields of a well-formed record, which need not be one that setup gives,
/// and buffers of the listed sizes.
pub(crate) fn real_frame(record: &FrameRecord) -> RefMvsFrame {
    let mut rf = without_buffers(record);
    rf.r.resize(fit(kept::listed_records(record)), FromZeroes::new_zeroed());
    rf.rp_proj
        .resize(fit(16 * record.n_blocks), Default::default());
    rf
}

/// The same, with no buffers.
pub(crate) fn without_buffers(record: &FrameRecord) -> RefMvsFrame {
    let ref2cur = |slot: &Slot| slot.ref2cur.map_or(i32::MIN, i32::from);
    RefMvsFrame {
        iw4: fit(record.iw4),
        ih4: fit(record.ih4),
        iw8: fit(record.iw8),
        ih8: fit(record.ih8),
        sbsz: fit(record.sbsz),
        use_ref_frame_mvs: record.use_ref_frame_mvs.into(),
        sign_bias: record.hints.map(|hint| hint.sign_bias),
        mfmv_sign: record.hints.map(|hint| hint.mfmv_sign),
        pocdiff: record.hints.map(|hint| hint.pocdiff),
        mfmv_ref: record.slots.map(|slot| slot.reference),
        mfmv_ref2cur: record.slots.each_ref().map(ref2cur),
        mfmv_ref2ref: record.slots.map(|slot| slot.ref2ref.map(i32::from)),
        n_mfmvs: record.n_mfmvs.into(),
        n_blocks: record.n_blocks,
        rp_stride: record.stride,
        n_tile_threads: record.n_tile_threads,
        n_frame_threads: record.n_frame_threads,
        ..Default::default()
    }
}

fn fit<T, U: TryInto<T, Error: Debug>>(number: U) -> T {
    number.try_into().expect("the number fits its field")
}

#[cfg(test)]
mod tests {
    use super::*;
    use crate::frame;

    /// Two references are selected, of which one is skipped.
    const FRAME: Description = Description {
        width: 200,
        height: 100,
        hint_bits: 8,
        current_hint: 100,
        tile_rows: 3,
        tile_threads: 2,
        frame_threads: 2,
        temporal: 1,
        hints: [99, 98, 97, 96, 132, 105, 104],
        hints_by_ref: [[95; 7]; 7],
        ..Description::SMALLEST
    };

    #[test]
    fn there_and_back_is_the_same() {
        for present in [[true; 7], [false; 7]] {
            let finished = frame::setup(&FRAME, present).gave().unwrap();
            let back = real_frame(&frame_record(&FRAME, &finished));
            assert_eq!(Finished::from(&back), finished);
        }
    }
}
