//! Save and load, as [`calls`](crate::calls): each answers 0 or a refusal, and writes only where it
//! answers 0.

use crate::abi;
use crate::lend::lend;

/// What a save or load covers, in 8-sample units.
#[derive(Clone, Copy, Debug)]
pub struct Window {
    pub tile_row: usize,
    pub left: usize,
    pub right: usize,
    pub top: usize,
    pub bottom: usize,
}

/// What a save covers, and whose row table it reads.
#[derive(Clone, Copy, Debug)]
pub struct Saving {
    pub window: Window,
    pub superblock_row: usize,
    pub pass: usize,
}

/// Save. Accepted, it writes the window's cells of `field`, each from the record that lies over it.
pub fn save_tmvs(frame: &[u8], saving: &Saving, records: &[u8], field: &mut [u8]) -> u8 {
    let window = &saving.window;
    lend([frame, records], [field], |[frame, records], [field]| {
        // SAFETY: The parts are slices, and none shares a byte with the one written to.
        unsafe {
            abi::jaskkovir_save_tmvs(
                frame.at,
                frame.len,
                window.tile_row,
                window.left,
                window.right,
                window.top,
                window.bottom,
                saving.superblock_row,
                saving.pass,
                records.at,
                records.len,
                field.at,
                field.len,
            )
        }
    })
}

/// Load. Accepted, it writes the window's cells of `projection`. A field whose `present` byte, of 7,
/// is 0 isn't looked at.
pub fn load_tmvs(
    frame: &[u8],
    window: &Window,
    present: &[u8],
    fields: [&[u8]; 7],
    projection: &mut [u8],
) -> u8 {
    let [f0, f1, f2, f3, f4, f5, f6] = fields;
    lend(
        [frame, present, f0, f1, f2, f3, f4, f5, f6],
        [projection],
        |[frame, present, f0, f1, f2, f3, f4, f5, f6], [projection]| {
            // SAFETY: The parts are slices, and none shares a byte with the one written to.
            unsafe {
                abi::jaskkovir_load_tmvs(
                    frame.at,
                    frame.len,
                    window.tile_row,
                    window.left,
                    window.right,
                    window.top,
                    window.bottom,
                    present.at,
                    present.len,
                    f0.at,
                    f0.len,
                    f1.at,
                    f1.len,
                    f2.at,
                    f2.len,
                    f3.at,
                    f3.len,
                    f4.at,
                    f4.len,
                    f5.at,
                    f5.len,
                    f6.at,
                    f6.len,
                    projection.at,
                    projection.len,
                )
            }
        },
    )
}
