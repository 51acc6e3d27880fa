//! Load.

use crate::buffers;
use crate::frame::Description;
use crate::frame::Inputs;
use crate::kept::FrameRecord;
use crate::leaves;
use crate::outcome::outcome_of;
use crate::record;
use crate::src::disjoint_mut::DisjointMutArcSlice;
use crate::src::refmvs::Rav1dRefmvsDSPContext;
use crate::src::refmvs::RefMvsFrame;
use crate::src::refmvs::RefMvsTemporalBlock;
use crate::Outcome;
use crate::Window;

/// `load_tmvs` on a frame that was just set up: the projection's bytes afterwards.
///
/// The frame is set up with `present`; the fields that the load is handed are their own matter. The
/// numbers must fit the Rust's types.
pub fn load(
    description: &Description,
    present: [bool; 7],
    window: &Window,
    fields: [Option<&[u8]>; 7],
    projection: &[u8],
) -> Outcome<Vec<u8>> {
    let inputs = Inputs::new(description, present);
    let numbers = window.real();
    outcome_of(|| {
        let prepared = Prepared::on(inputs.set_up(), numbers, fields, projection);
        prepared.call();
        let mut after = projection.to_vec();
        prepared.take_projection(&mut after);
        after
    })
}

/// A load with all that it needs in the Rust's own types, so that the call alone can be timed.
pub struct Prepared {
    rf: RefMvsFrame,
    fields: [Option<DisjointMutArcSlice<RefMvsTemporalBlock>>; 7],
    window: [i32; 5],
}

impl Prepared {
    /// Holds the whole cells of the lent bytes.
    pub fn new(
        description: &Description,
        present: [bool; 7],
        window: &Window,
        fields: [Option<&[u8]>; 7],
        projection: &[u8],
    ) -> Self {
        let rf = Inputs::new(description, present).set_up();
        Self::on(rf, window.real(), fields, projection)
    }

    /// The same for a well-formed record, which need not be one that setup gives.
    pub fn on_record(
        record: &FrameRecord,
        window: &Window,
        fields: [Option<&[u8]>; 7],
        projection: &[u8],
    ) -> Self {
        let rf = record::without_buffers(record);
        Self::on(rf, window.real(), fields, projection)
    }

    fn on(
        mut rf: RefMvsFrame,
        window: [i32; 5],
        fields: [Option<&[u8]>; 7],
        projection: &[u8],
    ) -> Self {
        let cells = buffers::cells(projection).count();
        rf.rp_proj.resize(cells, Default::default());
        let mut prepared = Self {
            rf,
            fields: fields.map(|bytes| Some(buffers::cells(bytes?).collect())),
            window,
        };
        prepared.put_projection(projection);
        prepared
    }

    /// `load_tmvs`, once. It panics where the Rust does.
    pub fn call(&self) {
        let [tile_row, col_start, col_end, row_start, row_end] = self.window;
        Rav1dRefmvsDSPContext::default().load_tmvs.call(
            &self.rf,
            // Only assembly is handed the field that the frame itself saves to.
            &None,
            &self.fields,
            tile_row,
            col_start,
            col_end,
            row_start,
            row_end,
        );
    }

    /// The same, with a panic told as a value.
    pub fn try_call(&self) -> Outcome<()> {
        outcome_of(|| self.call())
    }

    /// Turns to another window.
    pub fn set_window(&mut self, window: &Window) {
        self.window = window.real();
    }

    /// Replaces the projection, which keeps its length.
    pub fn put_projection(&mut self, bytes: &[u8]) {
        buffers::put_cells(&mut self.rf.rp_proj.index_mut(..), bytes);
    }

    /// Copies the projection out. What stands behind the last whole cell stays.
    pub fn take_projection(&self, bytes: &mut [u8]) {
        buffers::take_cells(&self.rf.rp_proj.index(..), bytes);
    }

    /// Replaces the field of a reference that has one.
    pub fn put_field(&mut self, reference: usize, bytes: &[u8]) {
        buffers::put_cells(&mut self.field(reference).inner.index_mut(..), bytes);
    }

    /// Replaces one cell of such a field.
    pub fn put_cell(&mut self, reference: usize, at: usize, bytes: [u8; 5]) {
        *self.field(reference).inner.index_mut(at) = leaves::temporal_block(bytes);
    }

    fn field(&self, reference: usize) -> &DisjointMutArcSlice<RefMvsTemporalBlock> {
        let field = self.fields[reference].as_ref();
        field.expect("the reference has a field")
    }
}
