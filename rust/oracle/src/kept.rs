//! What the port keeps of a frame and of a superblock row, in plain numbers: the paper judges it, and the
//! Rust is handed it in its own types.

/// A block record has 12 bytes, and a motion cell 5.
pub(crate) const RECORD_LEN: u64 = 12;
pub(crate) const CELL_LEN: u64 = 5;

/// A finished frame record as the port keeps it: the Rust's, and what it was made from.
#[derive(Clone, Copy, Debug, PartialEq, Eq)]
pub struct FrameRecord {
    pub width: u32,
    pub height: u32,
    pub iw4: u32,
    pub ih4: u32,
    pub iw8: u32,
    pub ih8: u32,
    pub sbsz: u32,
    pub stride: u32,
    pub tile_rows: u32,
    pub n_blocks: u32,
    pub n_tile_threads: u32,
    pub n_frame_threads: u32,
    pub use_ref_frame_mvs: u8,
    pub temporal: u8,
    pub n_mfmvs: u8,
    pub hints: [HintFields; 7],
    pub slots: [Slot; 3],
}

impl FrameRecord {
    /// The numbers before the flags, in their order.
    pub fn sizes(&self) -> [u32; 12] {
        [
            self.width,
            self.height,
            self.iw4,
            self.ih4,
            self.iw8,
            self.ih8,
            self.sbsz,
            self.stride,
            self.tile_rows,
            self.n_blocks,
            self.n_tile_threads,
            self.n_frame_threads,
        ]
    }
}

/// What setup keeps of one reference's hint.
#[derive(Clone, Copy, Debug, PartialEq, Eq)]
pub struct HintFields {
    pub sign_bias: u8,
    pub mfmv_sign: u8,
    pub pocdiff: i8,
}

/// One of the three selected references.
#[derive(Clone, Copy, Debug, PartialEq, Eq)]
pub struct Slot {
    pub reference: u8,
    /// Nothing for a skipped one.
    pub ref2cur: Option<i8>,
    pub ref2ref: [u8; 7],
}

/// A superblock row's table as the port keeps it.
#[derive(Clone, Copy, Debug, PartialEq, Eq)]
pub struct RowTable {
    pub entries: [Option<u32>; 37],
    /// The place of the tile row's part of the projection.
    pub projection: u32,
    pub col_start: u32,
    pub col_end: u32,
    pub row_start: u32,
    pub row_end: u32,
}

/// How many records are lent for a frame.
pub fn listed_records(record: &FrameRecord) -> u64 {
    let passes = if record.n_frame_threads > 1 { 2 } else { 1 };
    70 * u64::from(record.n_blocks) * passes + 1
}

/// How many cells a saved field has.
pub fn saved_cells(record: &FrameRecord) -> u64 {
    u64::from(record.stride) * u64::from(record.ih8)
}
