//! A superblock row that is to be set up.

use crate::damage::Damage;
use crate::list::Answer;
use crate::list::Case;
use crate::list::Function;
use crate::list::List;
use crate::list::Question;
use crate::question::FrameQuestion;
use cases::codec::tile_bytes;
use cases::codec::TILE_LEN;
use oracle::paper;
use oracle::paper::FrameRecord;
use oracle::paper::RowTable;
use oracle::rows;
use oracle::rows::Place;
use oracle::rows::Table;
use shared::desk::lent;
use shared::desk::Role;

/// The row, and its frame, whose record may be damaged.
#[derive(Clone, Copy)]
pub struct RowQuestion {
    pub frame: FrameQuestion,
    pub damage: Damage,
    pub place: Place,
}

impl RowQuestion {
    /// The first superblock row of a frame, in one tile.
    pub fn first_of(frame: FrameQuestion) -> Self {
        Self {
            frame,
            damage: Damage::NONE,
            place: Place {
                col_start: 0,
                col_end: frame.description.width.div_ceil(4),
                row_start: 0,
                row_end: frame.description.height.div_ceil(4),
                superblock_row: 0,
                tile_row: 0,
                pass: 1,
            },
        }
    }

    /// This question with something changed.
    pub fn with(mut self, change: impl FnOnce(&mut Self)) -> Self {
        change(&mut self);
        self
    }

    /// The frame's record after the damage.
    pub fn record(&self) -> Result<FrameRecord, String> {
        Ok(self.damage.on(self.frame.record()?))
    }

    /// The paper's answer to superblock-row setup.
    pub fn refusal(&self) -> Result<u8, String> {
        if self.frame.answer() != 0 {
            return Err("the frame itself is refused".to_string());
        }
        Ok(paper::rows_answer(&self.record()?, &self.place))
    }

    /// The Rust's table on the undamaged frame.
    pub fn table(&self) -> Result<Table, String> {
        rows::setup(&self.frame.description, &self.place)
            .gave()
            .ok_or_else(|| "the Rust panicked in superblock-row setup".to_string())
    }
}

impl Case for RowQuestion {
    fn put(&self, list: &mut List) -> Result<(), String> {
        self.frame.put(list)?;
        let question = Question::on(
            Function::TileSbrowInit,
            &self.record()?,
            self.place.numbers(),
        );
        let question = question.lending(Role::TILE, lent(TILE_LEN));
        let answer = match self.refusal()? {
            0 if !self.damage.is_none() => return Err("a damaged record is accepted".to_string()),
            0 => {
                let table = RowTable::from(&self.table()?);
                Answer::of(0).leaving(Role::TILE, tile_bytes(&table))
            }
            refusal => Answer::of(refusal),
        };
        list.put(question, answer);
        Ok(())
    }
}
