//! The frame that is timed.

use jaskkovir::calls;
use jaskkovir::Frame;
use oracle::frame::Description;

pub const PRESENT: [u8; 7] = [1; 7];

const HINTS_BY_REF: [[u8; 7]; 7] = [
    [18, 17, 16, 12, 15, 14, 13],
    [16, 12, 11, 8, 15, 14, 13],
    [12, 11, 8, 4, 10, 9, 8],
    [8, 4, 3, 0, 7, 6, 5],
    [19, 17, 16, 12, 22, 21, 20],
    [20, 19, 17, 12, 22, 21, 18],
    [20, 19, 17, 16, 18, 15, 14],
];

/// Superblocks of 64 samples; references 0, 4 and 5 are selected.
pub const FRAME: Description = Description {
    width: 1920,
    height: 1080,
    sb128: 0,
    hint_bits: 7,
    current_hint: 20,
    tile_rows: 1,
    tile_threads: 1,
    frame_threads: 1,
    temporal: 1,
    hints: [19, 17, 16, 12, 24, 23, 21],
    hints_by_ref: HINTS_BY_REF,
};

/// Sides in 4-sample units, and a superblock's.
pub const ACROSS: usize = 480;
pub const SIDE: usize = 16;

/// The same for the port.
pub fn asked() -> calls::Description<'static> {
    calls::Description {
        width: FRAME.width as usize,
        height: FRAME.height as usize,
        sb128: FRAME.sb128 as u8,
        hint_bits: FRAME.hint_bits,
        current_hint: FRAME.current_hint,
        hints: &FRAME.hints,
        hints_by_ref: HINTS_BY_REF.as_flattened(),
        tile_rows: FRAME.tile_rows as usize,
        tile_threads: FRAME.tile_threads as usize,
        frame_threads: FRAME.frame_threads as usize,
        temporal: FRAME.temporal as u8,
    }
}

pub fn frame() -> Frame {
    let frame = Frame::set_up(&asked(), &PRESENT).expect("the frame is accepted");
    assert_eq!(frame.0[50], 3, "three references are selected");
    frame
}

/// As many of the listed bytes as there are, all zero.
pub fn lent(count: u32, len: usize) -> Vec<u8> {
    vec![0; len * count as usize]
}
