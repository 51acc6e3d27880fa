//! Superblock-row setup.

use crate::frame::Description;
use crate::frame::Inputs;
use crate::kept::FrameRecord;
use crate::kept::RowTable;
use crate::outcome::outcome_of;
use crate::record;
use crate::src::refmvs::rav1d_refmvs_tile_sbrow_init;
use crate::src::refmvs::RefMvsFrame;
use crate::src::refmvs::RefmvsTile;
use crate::src::refmvs::RefmvsTileRange;
use crate::window;
use crate::Outcome;

pub use crate::asked::RowPlace as Place;

/// The Rust's mark for an entry that isn't there.
const ABSENT: usize = usize::MAX;

/// A superblock row's table.
#[derive(Clone, Copy, Debug, PartialEq, Eq)]
pub struct Table {
    /// Places in the record buffer, or nothing where a row is absent.
    pub entries: [Option<usize>; 37],
    /// The tile row's place in the projection buffer.
    pub projection: usize,
    pub col_start: i32,
    pub col_end: i32,
    pub row_start: i32,
    pub row_end: i32,
}

impl From<RefmvsTile> for Table {
    fn from(rt: RefmvsTile) -> Self {
        Self {
            entries: rt.r.map(|entry| (entry != ABSENT).then_some(entry)),
            projection: rt.rp_proj,
            col_start: rt.tile_col.start,
            col_end: rt.tile_col.end,
            row_start: rt.tile_row.start,
            row_end: rt.tile_row.end,
        }
    }
}

impl From<&Table> for RefmvsTile {
    fn from(table: &Table) -> Self {
        Self {
            r: table.entries.map(|entry| entry.unwrap_or(ABSENT)),
            rp_proj: table.projection,
            tile_col: RefmvsTileRange {
                start: table.col_start,
                end: table.col_end,
            },
            tile_row: RefmvsTileRange {
                start: table.row_start,
                end: table.row_end,
            },
        }
    }
}

/// The port's table, for places and bounds that fit it.
impl From<&Table> for RowTable {
    fn from(table: &Table) -> Self {
        let place = |place: usize| u32::try_from(place).expect("a place fits four bytes");
        let bound = |bound: i32| u32::try_from(bound).expect("a bound isn't negative");
        Self {
            entries: table.entries.map(|entry| entry.map(place)),
            projection: place(table.projection),
            col_start: bound(table.col_start),
            col_end: bound(table.col_end),
            row_start: bound(table.row_start),
            row_end: bound(table.row_end),
        }
    }
}

/// The Rust's table, for bounds that fit its types.
impl From<&RowTable> for Table {
    fn from(table: &RowTable) -> Self {
        let place = |place: u32| place as usize;
        Self {
            entries: table.entries.map(|entry| entry.map(place)),
            projection: place(table.projection),
            col_start: window::real(table.col_start),
            col_end: window::real(table.col_end),
            row_start: window::real(table.row_start),
            row_end: window::real(table.row_end),
        }
    }
}

/// `rav1d_refmvs_tile_sbrow_init` on a frame that was just set up.
///
/// The numbers must fit the types of the Rust.
pub fn setup(description: &Description, place: &Place) -> Outcome<Table> {
    // The references' fields don't come into it.
    let inputs = Inputs::new(description, [false; 7]);
    let numbers = place.numbers().map(window::real);
    outcome_of(|| tile(&inputs.set_up(), numbers).into())
}

/// A tile in the Rust's own type.
pub struct Tile(RefmvsTile);

/// A frame in the Rust's own type, for many rows.
pub struct Prepared(RefMvsFrame);

impl Prepared {
    /// The record must be well formed.
    pub fn on_record(record: &FrameRecord) -> Self {
        Self(record::without_buffers(record))
    }

    /// `rav1d_refmvs_tile_sbrow_init`. The numbers must fit the types of the Rust.
    pub fn setup(&self, place: &Place) -> Outcome<Table> {
        outcome_of(|| Table::from(self.call(place).0))
    }

    /// The same, left in the Rust's own type. It panics where the Rust does.
    pub fn call(&self, place: &Place) -> Tile {
        Tile(tile(&self.0, place.numbers().map(window::real)))
    }
}

pub(crate) fn tile(rf: &RefMvsFrame, numbers: [i32; 7]) -> RefmvsTile {
    let [col_start, col_end, row_start, row_end, superblock_row, tile_row, pass] = numbers;
    rav1d_refmvs_tile_sbrow_init(
        rf,
        col_start,
        col_end,
        row_start,
        row_end,
        superblock_row,
        tile_row,
        pass,
    )
}
