//! Save.

use crate::buffers;
use crate::frame::Description;
use crate::frame::Inputs;
use crate::kept::FrameRecord;
use crate::outcome::outcome_of;
use crate::record;
use crate::rows;
use crate::src::disjoint_mut::DisjointMutArcSlice;
use crate::src::refmvs::Rav1dRefmvsDSPContext;
use crate::src::refmvs::RefMvsBlock;
use crate::src::refmvs::RefMvsFrame;
use crate::src::refmvs::RefMvsTemporalBlock;
use crate::src::refmvs::RefmvsTile;
use crate::Outcome;

pub use crate::asked::SavePlace as Place;

/// `save_tmvs` on a frame that was just set up: the field's bytes afterwards.
///
/// Byte 10 of each record must be a size code, and the numbers must fit the Rust's types.
pub fn save(
    description: &Description,
    present: [bool; 7],
    place: &Place,
    records: &[u8],
    field: &[u8],
) -> Outcome<Vec<u8>> {
    let inputs = Inputs::new(description, present);
    let (numbers, blocks) = (place.real(), buffers::blocks(records));
    outcome_of(|| {
        let prepared = Prepared::on(inputs.set_up(), numbers, &blocks, field);
        prepared.call();
        let mut after = field.to_vec();
        prepared.take_field(&mut after);
        after
    })
}

/// A save with all that it needs in the Rust's own types, so that the call alone can be timed.
pub struct Prepared {
    rf: RefMvsFrame,
    rt: RefmvsTile,
    field: Option<DisjointMutArcSlice<RefMvsTemporalBlock>>,
    bounds: [i32; 4],
}

impl Prepared {
    /// Holds the whole records and cells of the lent bytes.
    pub fn new(
        description: &Description,
        present: [bool; 7],
        place: &Place,
        records: &[u8],
        field: &[u8],
    ) -> Self {
        let rf = Inputs::new(description, present).set_up();
        Self::on(rf, place.real(), &buffers::blocks(records), field)
    }

    /// The same for a well-formed record, which need not be one that setup gives.
    pub fn on_record(record: &FrameRecord, place: &Place, records: &[u8], field: &[u8]) -> Self {
        let rf = record::without_buffers(record);
        Self::on(rf, place.real(), &buffers::blocks(records), field)
    }

    fn on(mut rf: RefMvsFrame, numbers: [i32; 7], blocks: &[RefMvsBlock], field: &[u8]) -> Self {
        buffers::put_blocks(&mut rf, blocks);
        Self {
            rt: tile(&rf, numbers),
            rf,
            field: Some(buffers::cells(field).collect()),
            bounds: bounds(numbers),
        }
    }

    /// Turns to another window, superblock row or pass.
    pub fn set_place(&mut self, place: &Place) {
        let numbers = place.real();
        self.rt = tile(&self.rf, numbers);
        self.bounds = bounds(numbers);
    }

    /// `save_tmvs`, once. It panics where the Rust does.
    pub fn call(&self) {
        let [col_start, col_end, row_start, row_end] = self.bounds;
        Rav1dRefmvsDSPContext::default().save_tmvs.call(
            &self.rt,
            &self.rf,
            &self.field,
            col_start,
            col_end,
            row_start,
            row_end,
        );
    }

    /// The same, with a panic told as a value.
    pub fn try_call(&self) -> Outcome<()> {
        outcome_of(|| self.call())
    }

    /// Replaces one record. Byte 10 must be a size code.
    pub fn put_record(&mut self, at: usize, record: [u8; 12]) {
        buffers::put_block(&mut self.rf, at, record);
    }

    /// Replaces the records by as many as the bytes hold.
    pub fn put_records(&mut self, bytes: &[u8]) {
        buffers::put_blocks(&mut self.rf, &buffers::blocks(bytes));
    }

    /// Replaces the field, which keeps its length.
    pub fn put_field(&mut self, bytes: &[u8]) {
        buffers::put_cells(&mut self.cells().inner.index_mut(..), bytes);
    }

    /// Copies the field out. What stands behind the last whole cell stays.
    pub fn take_field(&self, bytes: &mut [u8]) {
        buffers::take_cells(&self.cells().inner.index(..), bytes);
    }

    fn cells(&self) -> &DisjointMutArcSlice<RefMvsTemporalBlock> {
        self.field.as_ref().expect("a save has its field")
    }
}

/// A save doesn't read the tile's bounds.
fn tile(rf: &RefMvsFrame, numbers: [i32; 7]) -> RefmvsTile {
    let [tile_row, _, _, _, _, superblock_row, pass] = numbers;
    rows::tile(rf, [0, 0, 0, 0, superblock_row, tile_row, pass])
}

fn bounds(numbers: [i32; 7]) -> [i32; 4] {
    let [_, col_start, col_end, row_start, row_end, _, _] = numbers;
    [col_start, col_end, row_start, row_end]
}
