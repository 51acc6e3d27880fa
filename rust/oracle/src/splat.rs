//! Splat.

use crate::buffers;
use crate::buffers::real;
use crate::frame::Description;
use crate::frame::Inputs;
use crate::kept::FrameRecord;
use crate::outcome::outcome_of;
use crate::record;
use crate::rows::Table;
use crate::src::align::Align16;
use crate::src::internal::Bxy;
use crate::src::refmvs::Rav1dRefmvsDSPContext;
use crate::src::refmvs::RefMvsBlock;
use crate::src::refmvs::RefMvsFrame;
use crate::src::refmvs::RefmvsTile;
use crate::window;
use crate::Outcome;

pub use crate::asked::Block;

/// `splat_mv` on a frame that was just set up: the places of the records that it wrote, in order.
///
/// Byte 10 of the record must be a size code, and the block's numbers must fit the Rust's types.
pub fn splat(
    description: &Description,
    table: &Table,
    block: &Block,
    record: [u8; 12],
) -> Outcome<Vec<usize>> {
    // The references' fields don't come into it.
    let inputs = Inputs::new(description, [false; 7]);
    let (origin, splatted) = (origin(block), Splatted::new(record));
    outcome_of(|| {
        let prepared = Prepared::on(inputs.set_up(), table);
        let before = fill(&prepared.rf, record);
        prepared.call_at(origin, block, &splatted);
        written(&prepared.rf, before, record)
    })
}

/// A frame with its records and a tile, in the Rust's own types, so that the call alone can be
/// timed.
pub struct Prepared {
    rf: RefMvsFrame,
    rt: RefmvsTile,
}

/// A record that may be splatted, in the Rust's own type.
pub struct Splatted(Align16<RefMvsBlock>);

impl Splatted {
    /// Byte 10 must be a size code.
    pub fn new(record: [u8; 12]) -> Self {
        Self(Align16(real(record)))
    }
}

impl Prepared {
    /// The records are those of a frame that was just set up.
    pub fn new(description: &Description, table: &Table) -> Self {
        Self::on(Inputs::new(description, [false; 7]).set_up(), table)
    }

    /// The same for a well-formed record, which need not be one that setup gives.
    pub fn on_record(record: &FrameRecord, table: &Table) -> Self {
        Self::on(record::real_frame(record), table)
    }

    fn on(rf: RefMvsFrame, table: &Table) -> Self {
        let rt = RefmvsTile::from(table);
        Self { rf, rt }
    }

    /// `splat_mv`, once. It panics where the Rust does.
    pub fn call(&self, block: &Block, record: &Splatted) {
        self.call_at(origin(block), block, record);
    }

    /// The same, with a panic told as a value.
    pub fn try_call(&self, block: &Block, record: &Splatted) -> Outcome<()> {
        outcome_of(|| self.call(block, record))
    }

    pub fn set_table(&mut self, table: &Table) {
        self.rt = table.into();
    }

    fn call_at(&self, origin: Bxy, block: &Block, record: &Splatted) {
        Rav1dRefmvsDSPContext::default().splat_mv.call(
            &self.rf,
            &self.rt,
            &record.0,
            origin,
            block.width as usize,
            block.height as usize,
        );
    }

    /// Replaces the records by as many as the bytes hold.
    pub fn put_records(&mut self, bytes: &[u8]) {
        buffers::put_blocks(&mut self.rf, &buffers::blocks(bytes));
    }

    /// The bytes of the records.
    pub fn records(&self) -> Vec<u8> {
        buffers::record_buffer(&self.rf)
    }

    /// Copies the records out. What stands behind the last whole record stays.
    pub fn take_records(&self, bytes: &mut [u8]) {
        buffers::take_blocks(&self.rf, bytes);
    }
}

fn origin(block: &Block) -> Bxy {
    let [x, y] = [block.bx4, block.by4].map(window::real);
    Bxy { x, y }
}

/// Fills the buffer with the record but for its last bit, so that each written one shows.
fn fill(rf: &RefMvsFrame, record: [u8; 12]) -> [u8; 12] {
    let mut other = record;
    other[11] ^= 1;
    rf.r.index_mut(..).fill(real(other));
    other
}

fn written(rf: &RefMvsFrame, before: [u8; 12], record: [u8; 12]) -> Vec<usize> {
    let places = rf.r.index(..);
    let places = places.iter().map(buffers::record_bytes).enumerate();
    places
        .filter(|&(_, now)| {
            assert!(now == before || now == record, "a record written in part");
            now == record
        })
        .map(|(place, _)| place)
        .collect()
}
