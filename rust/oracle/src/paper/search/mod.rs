//! The candidate search: which refusal it gives, what it finds, and all that it reads. Read off
//! document 01, the standard and the order of the source, in plain lists and wide numbers.

mod extra;
mod reads;
mod spatial;
mod stack;
mod temporal;
mod wanted;

use super::frame::record_answer;
use super::frame::FLAG;
use super::sizes::SIDES_OF;
use crate::asked::Answer;
use crate::asked::Ask;
use crate::kept::listed_records;
use crate::kept::FrameRecord;
use crate::kept::RowTable;
use crate::kept::CELL_LEN;
use crate::kept::RECORD_LEN;
use reads::Reads;
use spatial::Matches;
use stack::Stack;
use wanted::Wanted;

/// A vector, y first.
type Mv = [i64; 2];

/// What a search reads from.
#[derive(Clone, Copy)]
pub struct Lent<'a> {
    pub record: &'a FrameRecord,
    pub table: &'a RowTable,
    pub records: &'a [u8],
    pub projection: &'a [u8],
}

/// An accepted search.
#[derive(Clone, Debug, PartialEq, Eq)]
pub struct Searched {
    /// What document 01 fixes; all else of the stack is zero.
    pub answer: Answer,
    /// The places of all records read, each once, in the order of the first reads.
    pub records: Vec<u64>,
    /// The places of all projected cells read, alike.
    pub cells: Vec<u64>,
}

/// Search: 1, then 10, then 4 for the listed sizes, then read by read 6, 4, 7, 8 and 9.
pub fn search(lent: &Lent, ask: &Ask) -> Result<Searched, u8> {
    if record_answer(lent.record) != 0 || !flags_are_fine(ask) {
        return Err(1);
    }
    if !ask_is_fine(lent, ask) {
        return Err(10);
    }
    if !parts_are_whole(lent) {
        return Err(4);
    }
    Search::new(lent, ask).run()
}

/// All five, used or not.
fn flags_are_fine(ask: &Ask) -> bool {
    let [first, second] = ask.globals.map(|global| global.above);
    [ask.above_right, first, second, ask.integer, ask.hp]
        .iter()
        .all(|flag| FLAG.contains(flag))
}

fn ask_is_fine(lent: &Lent, ask: &Ask) -> bool {
    let (record, table) = (lent.record, lent.table);
    let references = match ask.references {
        [0, -1] => record.use_ref_frame_mvs == 0,
        [1..=7, -1 | 1..=7] => true,
        _ => false,
    };
    let mut globals = ask.used_globals();
    references
        && usize::from(ask.size) < SIDES_OF.len()
        && (table.col_start..table.col_end).contains(&ask.bx4)
        && (table.row_start..table.row_end).contains(&ask.by4)
        && table.col_end <= record.iw4
        && table.row_end <= record.ih4
        && globals.all(|(_, global)| {
            [global.mv.y, global.mv.x]
                .iter()
                .all(|component| (-16_383..=16_383).contains(component))
        })
}

/// The projection counts only with temporal search on.
fn parts_are_whole(lent: &Lent) -> bool {
    let cells = 16 * u64::from(lent.record.n_blocks);
    lent.records.len() as u64 >= RECORD_LEN * listed_records(lent.record)
        && (lent.record.use_ref_frame_mvs == 0 || lent.projection.len() as u64 >= CELL_LEN * cells)
}

/// The block and its tile, in 4-sample units.
struct Place {
    row: i64,
    column: i64,
    width: i64,
    height: i64,
    /// How far along the block is walked: at most 16, and not past the tile.
    across: i64,
    down: i64,
    row_start: i64,
    row_end: i64,
    column_start: i64,
    column_end: i64,
}

impl Place {
    fn new(table: &RowTable, ask: &Ask) -> Self {
        let [width, height] = SIDES_OF[usize::from(ask.size)].map(i64::from);
        let [row, column] = [ask.by4, ask.bx4].map(i64::from);
        let [row_start, row_end] = [table.row_start, table.row_end].map(i64::from);
        let [column_start, column_end] = [table.col_start, table.col_end].map(i64::from);
        Self {
            row,
            column,
            width,
            height,
            across: width.min(16).min(column_end - column),
            down: height.min(16).min(row_end - row),
            row_start,
            row_end,
            column_start,
            column_end,
        }
    }

    fn has_above(&self) -> bool {
        self.row > self.row_start
    }

    fn has_left(&self) -> bool {
        self.column > self.column_start
    }

    /// The entry of the table for a row counted from the block's own.
    fn entry(&self, dy: i64) -> i64 {
        self.row % 32 + 5 + dy
    }
}

/// A search under way.
struct Search<'a> {
    record: &'a FrameRecord,
    place: Place,
    wanted: Wanted,
    above_right: bool,
    integer: bool,
    hp: bool,
    reads: Reads<'a>,
    stack: Stack,
    matches: Matches,
    /// The zero-motion context, which starts at the header's flag.
    zero: i64,
}

impl<'a> Search<'a> {
    fn new(lent: &Lent<'a>, ask: &Ask) -> Self {
        Self {
            record: lent.record,
            place: Place::new(lent.table, ask),
            wanted: Wanted::new(lent.record, ask),
            above_right: ask.above_right == 1,
            integer: ask.integer == 1,
            hp: ask.hp == 1,
            reads: Reads::new(lent),
            stack: Stack::default(),
            matches: Matches::default(),
            zero: lent.record.temporal.into(),
        }
    }

    fn run(mut self) -> Result<Searched, u8> {
        let lines = self.nearest()?;
        let (nearest, near) = (self.matches, self.stack.len());
        self.stack.lift();
        self.temporal()?;
        self.farther(lines)?;
        self.stack.sort(near);
        let context = self.context(nearest);
        self.extra()?;
        self.clamp();
        let fill = (!self.wanted.compound).then_some(self.wanted.globals[0]);
        Ok(Searched {
            answer: self.stack.answer(context as u8, fill),
            records: self.reads.records,
            cells: self.reads.cells,
        })
    }

    /// By the matches of the nearest scans, among which alone new vectors count, and of all.
    fn context(&self, nearest: Matches) -> i64 {
        let (total, new) = (self.matches.sides(), i64::from(nearest.new));
        let (reference, new) = match nearest.sides() {
            0 => (total, total.min(1)),
            1 => (2 + total, 3 - new),
            _ => (5, 5 - new),
        };
        if !self.wanted.compound {
            return reference * 16 + self.zero * 8 + new;
        }
        let row = [[0, 1, 1, 1, 1], [1, 2, 3, 4, 4], [4, 4, 5, 6, 7]][reference as usize / 2];
        row[new.min(4) as usize]
    }

    /// All that was found: at most 4 units of 4 samples past the frame, and the block besides.
    fn clamp(&mut self) {
        let place = &self.place;
        let [iw4, ih4] = [self.record.iw4, self.record.ih4].map(i64::from);
        let rows = [-(place.row + place.height + 4), ih4 - place.row + 4];
        let columns = [-(place.column + place.width + 4), iw4 - place.column + 4];
        self.stack.clamp([rows, columns]);
    }
}
