//! Frame setup.

use crate::include::dav1d::headers::Rav1dFrameHeader;
use crate::include::dav1d::headers::Rav1dFrameHeaderTiling;
use crate::include::dav1d::headers::Rav1dFrameSize;
use crate::include::dav1d::headers::Rav1dSequenceHeader;
use crate::outcome::outcome_of;
use crate::sequence_header;
use crate::src::disjoint_mut::DisjointMutArcSlice;
use crate::src::refmvs::rav1d_refmvs_init_frame;
use crate::src::refmvs::RefMvsFrame;
use crate::src::refmvs::RefMvsTemporalBlock;
use crate::Outcome;
use std::array;

/// What a frame is set up from, but for the references' fields.
#[derive(Clone, Copy, Debug, PartialEq, Eq)]
pub struct Description {
    pub width: u32,
    pub height: u32,
    pub sb128: u32,
    pub hint_bits: u32,
    pub current_hint: u32,
    pub tile_rows: u32,
    pub tile_threads: u32,
    pub frame_threads: u32,
    pub temporal: u32,
    pub hints: [u8; 7],
    /// Row i holds the hints that reference i's own frame had.
    pub hints_by_ref: [[u8; 7]; 7],
}

impl Description {
    /// The smallest frame that there is, without hints.
    pub const SMALLEST: Self = Self {
        width: 1,
        height: 1,
        sb128: 0,
        hint_bits: 0,
        current_hint: 0,
        tile_rows: 1,
        tile_threads: 1,
        frame_threads: 1,
        temporal: 0,
        hints: [0; 7],
        hints_by_ref: [[0; 7]; 7],
    };

    /// The length of a capture file's kind 1.
    pub const BODY_LEN: usize = 67;

    /// What stands there: width, height (u16); all else in bytes.
    pub fn from_body(body: &[u8; Self::BODY_LEN]) -> Self {
        let number = |at: usize| u32::from(body[at]);
        let side = |at: usize| u32::from(u16::from_le_bytes([body[at], body[at + 1]]));
        Self {
            width: side(0),
            height: side(2),
            sb128: number(4),
            hint_bits: number(5),
            current_hint: number(6),
            hints: array::from_fn(|i| body[7 + i]),
            hints_by_ref: array::from_fn(|i| array::from_fn(|m| body[14 + 7 * i + m])),
            tile_rows: number(63),
            tile_threads: number(64),
            frame_threads: number(65),
            temporal: number(66),
        }
    }
}

/// A frame record after setup, under the Rust's names. Setup was given a fresh record, so whatever
/// the Rust leaves stale is 0.
#[derive(Clone, Copy, Debug, PartialEq, Eq)]
pub struct Finished {
    pub iw4: i32,
    pub ih4: i32,
    pub iw8: i32,
    pub ih8: i32,
    pub sbsz: i32,
    pub rp_stride: u32,
    pub n_blocks: u32,
    pub n_tile_threads: u32,
    pub n_frame_threads: u32,
    pub use_ref_frame_mvs: i32,
    pub sign_bias: [u8; 7],
    pub mfmv_sign: [u8; 7],
    pub pocdiff: [i8; 7],
    pub n_mfmvs: i32,
    pub mfmv_ref: [u8; 3],
    /// Nothing for a reference that is skipped.
    pub mfmv_ref2cur: [Option<i32>; 3],
    pub mfmv_ref2ref: [[i32; 7]; 3],
    /// The length of `r`.
    pub records: usize,
    /// The length of `rp_proj`.
    pub projection: usize,
}

impl From<&RefMvsFrame> for Finished {
    fn from(rf: &RefMvsFrame) -> Self {
        Self {
            iw4: rf.iw4,
            ih4: rf.ih4,
            iw8: rf.iw8,
            ih8: rf.ih8,
            sbsz: rf.sbsz,
            rp_stride: rf.rp_stride,
            n_blocks: rf.n_blocks,
            n_tile_threads: rf.n_tile_threads,
            n_frame_threads: rf.n_frame_threads,
            use_ref_frame_mvs: rf.use_ref_frame_mvs,
            sign_bias: rf.sign_bias,
            mfmv_sign: rf.mfmv_sign,
            pocdiff: rf.pocdiff,
            n_mfmvs: rf.n_mfmvs,
            mfmv_ref: rf.mfmv_ref,
            mfmv_ref2cur: rf
                .mfmv_ref2cur
                .map(|distance| (distance != i32::MIN).then_some(distance)),
            mfmv_ref2ref: rf.mfmv_ref2ref,
            records: rf.r.len(),
            projection: rf.rp_proj.len(),
        }
    }
}

/// `rav1d_refmvs_init_frame` on a fresh record.
///
/// The description's numbers must fit the types of the Rust's headers.
pub fn setup(description: &Description, present: [bool; 7]) -> Outcome<Finished> {
    let inputs = Inputs::new(description, present);
    outcome_of(|| Finished::from(&inputs.set_up()))
}

/// The same without the buffers, which are large for a large frame: `records` and `projection` are 0.
pub fn setup_without_buffers(description: &Description, present: [bool; 7]) -> Outcome<Finished> {
    let inputs = Inputs::new(description, present);
    // Setup makes buffers only where the number of blocks changes. Were this another number than
    // setup comes to, it would make them, and `n_blocks` would still be its own.
    let tile_rows_apart = match description.tile_threads {
        0 | 1 => 1,
        _ => description.tile_rows,
    };
    let rf = RefMvsFrame {
        n_blocks: 16 * description.width.div_ceil(128) * tile_rows_apart,
        ..Default::default()
    };
    outcome_of(|| Finished::from(&inputs.set_up_on(rf)))
}

/// A setup with all that it needs in the Rust's own types, so that the call alone can be timed.
pub struct Prepared {
    inputs: Inputs,
    rf: RefMvsFrame,
}

impl Prepared {
    pub fn new(description: &Description, present: [bool; 7]) -> Self {
        let inputs = Inputs::new(description, present);
        let rf = inputs.set_up();
        Self { inputs, rf }
    }

    /// `rav1d_refmvs_init_frame`, once, on the record of the call before. Its buffers are there.
    pub fn call(&mut self) {
        self.inputs.call(&mut self.rf);
    }

    pub fn finished(&self) -> Finished {
        (&self.rf).into()
    }
}

/// A description in the Rust's own types.
pub(crate) struct Inputs {
    sequence: Rav1dSequenceHeader,
    header: Rav1dFrameHeader,
    hints: [u32; 7],
    hints_by_ref: [[u32; 7]; 7],
    fields: [Option<DisjointMutArcSlice<RefMvsTemporalBlock>>; 7],
    tile_threads: u32,
    frame_threads: u32,
}

impl Inputs {
    pub(crate) fn new(description: &Description, present: [bool; 7]) -> Self {
        let tiling = Rav1dFrameHeaderTiling {
            rows: byte(description.tile_rows),
            ..Default::default()
        };
        Self {
            sequence: Rav1dSequenceHeader {
                sb128: byte(description.sb128),
                order_hint_n_bits: byte(description.hint_bits),
                ..sequence_header::EMPTY
            },
            header: Rav1dFrameHeader {
                size: size(description.width, description.height),
                frame_offset: byte(description.current_hint),
                use_ref_frame_mvs: byte(description.temporal),
                tiling,
                ..Default::default()
            },
            hints: description.hints.map(u32::from),
            hints_by_ref: description.hints_by_ref.map(|hints| hints.map(u32::from)),
            // Setup only asks which are there.
            fields: present.map(|present| present.then(DisjointMutArcSlice::default)),
            tile_threads: description.tile_threads,
            frame_threads: description.frame_threads,
        }
    }

    pub(crate) fn set_up(&self) -> RefMvsFrame {
        self.set_up_on(RefMvsFrame::default())
    }

    fn set_up_on(&self, mut rf: RefMvsFrame) -> RefMvsFrame {
        self.call(&mut rf);
        rf
    }

    fn call(&self, rf: &mut RefMvsFrame) {
        rav1d_refmvs_init_frame(
            rf,
            &self.sequence,
            &self.header,
            &self.hints,
            &self.hints_by_ref,
            &self.fields,
            self.tile_threads,
            self.frame_threads,
        )
        .unwrap();
    }
}

fn size(width: u32, height: u32) -> Rav1dFrameSize {
    let [width, height] =
        [width, height].map(|side| i32::try_from(side).expect("a side fits the Rust's type"));
    Rav1dFrameSize {
        width: [width; 2],
        height,
        ..Default::default()
    }
}

fn byte(number: u32) -> u8 {
    number.try_into().expect("a number fits the Rust's type")
}
