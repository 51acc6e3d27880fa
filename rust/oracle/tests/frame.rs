//! Frame setup as the Rust gives it. P9 is a worked value of the scope paper.

use oracle::frame::setup;
use oracle::frame::Description;
use oracle::frame::Finished;

/// A frame of 7 hint bits at hint 20, with references behind and ahead.
const FRAME: Description = Description {
    width: 1920,
    height: 1080,
    sb128: 0,
    hint_bits: 7,
    current_hint: 20,
    tile_rows: 4,
    tile_threads: 1,
    frame_threads: 1,
    temporal: 1,
    hints: [19, 18, 17, 16, 24, 23, 22],
    hints_by_ref: [[10; 7]; 7],
};

fn finished(description: Description, present: [bool; 7]) -> Finished {
    setup(&description, present).gave().unwrap()
}

/// Only reference `at` is there.
fn only(at: usize) -> [bool; 7] {
    std::array::from_fn(|i| i == at)
}

#[test]
fn p9_sizes() {
    let frame = finished(FRAME, [true; 7]);
    assert_eq!(frame.rp_stride, 240);
    assert_eq!(frame.records, 16_801);
    assert_eq!(frame.projection, 16 * 240);
    assert_eq!(
        [frame.iw4, frame.ih4, frame.iw8, frame.ih8],
        [480, 270, 240, 135]
    );
    assert_eq!(frame.sbsz, 16);
}

#[test]
fn threads_multiply_the_buffers() {
    let threads = |tile_threads, frame_threads| {
        let description = Description {
            tile_threads,
            frame_threads,
            ..FRAME
        };
        let frame = finished(description, [true; 7]);
        (frame.n_blocks, frame.projection, frame.records)
    };
    assert_eq!(threads(2, 1), (960, 16 * 960, 70 * 960 + 1));
    assert_eq!(threads(1, 2), (240, 16 * 240, 140 * 240 + 1));
    assert_eq!(threads(2, 2), (960, 16 * 960, 140 * 960 + 1));
}

#[test]
fn a_reference_is_skipped_at_32_and_not_at_31() {
    let last = |hint| {
        let mut description = FRAME;
        description.hints[0] = hint;
        let frame = finished(description, only(0));
        assert_eq!((frame.n_mfmvs, frame.mfmv_ref[0]), (1, 0));
        frame.mfmv_ref2cur[0]
    };
    // Hints -11 and -12 modulo 128.
    assert_eq!(last(117), Some(31));
    assert_eq!(last(116), None);
    assert_eq!(last(51), Some(-31));
    assert_eq!(last(52), None);

    let mut description = FRAME;
    description.hints[4] = 52;
    let frame = finished(description, only(4));
    assert_eq!((frame.mfmv_ref[0], frame.mfmv_ref2cur[0]), (4, None));
    assert_eq!(frame.mfmv_ref2ref[0], [0; 7]);
    assert_eq!(frame.pocdiff[4], -31);
}

#[test]
fn hints_wrap() {
    let mut description = FRAME;
    description.current_hint = 2;
    description.hints = [126, 127, 0, 1, 4, 3, 66];
    let frame = finished(description, [true; 7]);
    assert_eq!(frame.pocdiff, [4, 3, 2, 1, -2, -1, -31]);
    // 66 is 64 away, which is as far behind as ahead and counts as behind.
    assert_eq!(frame.sign_bias, [0, 0, 0, 0, 1, 1, 0]);
    assert_eq!(frame.mfmv_sign, [1, 1, 1, 1, 0, 0, 1]);
    assert_eq!(frame.mfmv_ref, [0, 4, 5]);
    assert_eq!(frame.mfmv_ref2cur, [Some(4), Some(2), Some(1)]);
}

#[test]
fn distances_between_references_are_0_unless_0_to_31() {
    let mut description = FRAME;
    description.hints_by_ref[4] = [24, 23, 25, 121, 120, 88, 87];
    let frame = finished(description, only(4));
    assert_eq!(frame.mfmv_ref2ref[0], [0, 1, 0, 31, 0, 0, 0]);
}

#[test]
fn last_is_left_out_where_its_altref_is_the_golden_frame() {
    let mut description = FRAME;
    let selected = |description, present| {
        let frame = finished(description, present);
        frame.mfmv_ref[..frame.n_mfmvs as usize].to_vec()
    };
    assert_eq!(selected(description, [true; 7]), [0, 4, 5]);
    description.hints_by_ref[0][6] = description.hints[3];
    assert_eq!(selected(description, [true; 7]), [4, 5]);
    // Without last there are two places, which the altref and last2 may fill.
    let mut present = [true; 7];
    present[5] = false;
    assert_eq!(selected(description, present), [4, 6]);
    present[4] = false;
    assert_eq!(selected(description, present), [6, 1]);
}

#[test]
fn nothing_is_selected_without_bits_or_temporal_search() {
    let mut without_bits = FRAME;
    without_bits.hint_bits = 0;
    without_bits.current_hint = 0;
    without_bits.hints = [0; 7];
    without_bits.hints_by_ref = [[0; 7]; 7];
    let mut without_search = FRAME;
    without_search.temporal = 0;
    for description in [without_bits, without_search] {
        let frame = finished(description, [true; 7]);
        assert_eq!((frame.n_mfmvs, frame.use_ref_frame_mvs), (0, 0));
        assert_eq!(frame.mfmv_ref2cur, [Some(0); 3]);
    }
    assert_eq!(finished(without_bits, [true; 7]).pocdiff, [0; 7]);
}
