//! A save.

use crate::damage::Damage;
use crate::list::Answer;
use crate::list::Case;
use crate::list::Function;
use crate::list::List;
use crate::list::Question;
use crate::question::FrameQuestion;
use crate::record::CELL_LEN;
use crate::record::RECORD_LEN;
use oracle::leaves;
use oracle::paper;
use oracle::paper::FrameRecord;
use oracle::save;
use oracle::save::Place;
use oracle::Outcome;
use oracle::Window;
use shared::desk::lent;
use shared::desk::Role;
use std::ops::Range;

/// The most bytes that a case lends in one buffer.
pub const MOST_BYTES: u32 = 60_000;

/// A save on a frame, whose record may be damaged.
#[derive(Clone)]
pub struct SaveQuestion {
    pub frame: FrameQuestion,
    pub damage: Damage,
    pub place: Place,
    pub records_len: u32,
    pub field_len: u32,
    /// Stands in each record that no patch covers.
    pub filler: [u8; 12],
    pub patches: Vec<Patch>,
}

/// Records that all become the same one.
#[derive(Clone, Copy)]
pub struct Patch {
    pub first: u32,
    pub count: u32,
    pub record: [u8; 12],
}

impl SaveQuestion {
    /// A save with buffers of the listed sizes.
    pub fn new(frame: FrameQuestion, place: Place, filler: [u8; 12]) -> Self {
        let finished = frame.finished().expect("a save's frame is accepted");
        let fit = |count: usize| u32::try_from(count).expect("a listed size fits");
        let saved = finished.rp_stride * finished.ih8 as u32;
        Self {
            frame,
            damage: Damage::NONE,
            place,
            records_len: RECORD_LEN * fit(finished.records),
            field_len: CELL_LEN * saved,
            filler,
            patches: Vec::new(),
        }
    }

    /// This question with something changed.
    pub fn with(&self, change: impl FnOnce(&mut Self)) -> Self {
        let mut changed = self.clone();
        change(&mut changed);
        changed
    }

    /// This question with a record put where it is read for cell (y, x).
    pub fn reading(&self, [y, x]: [u32; 2], record: [u8; 12]) -> Self {
        self.with(|question| question.put([y, x], 1, record))
    }

    /// Puts records from where the one for cell (y, x) is read.
    pub fn put(&mut self, [y, x]: [u32; 2], count: u32, record: [u8; 12]) {
        let first = self.place_of(y, x).expect("the row is in the table");
        let patch = Patch {
            first,
            count,
            record,
        };
        self.patches.push(patch);
    }

    /// The place of the record that is read for cell (y, x), if its row is in the table.
    fn place_of(&self, y: u32, x: u32) -> Option<u32> {
        let record = self.frame.record().expect("a save's frame is accepted");
        let Place {
            window,
            superblock_row,
            pass,
        } = self.place;
        let entries = paper::row_entries(&record, window.tile_row, superblock_row, pass);
        let entry = entries[6 + 2 * (y as usize % 16)]?;
        Some(entry as u32 + 2 * x + 1)
    }

    /// Rows and columns that are walked, and the limit of their blocks.
    pub fn walked(&self) -> (Range<u32>, Range<u32>, u32) {
        let record = self.frame.record().expect("a save's frame is accepted");
        let window = &self.place.window;
        let col_end = window.col_end.min(record.iw8);
        let limit = if col_end < record.iw8 {
            col_end
        } else {
            record.stride
        };
        let rows = window.row_start..window.row_end.min(record.ih8);
        (rows, window.col_start..col_end, limit)
    }

    /// The frame's record after the damage.
    fn record(&self) -> Result<FrameRecord, String> {
        Ok(self.damage.on(self.frame.record()?))
    }

    pub fn question(&self) -> Result<Question, String> {
        let numbers = self.place.numbers();
        let question = Question::on(Function::SaveTmvs, &self.record()?, numbers);
        Ok(question
            .lending(Role::RECORDS, self.records())
            .lending(Role::SAVED, lent(self.field_len as usize)))
    }

    /// The lent records: fillers and patches, and zeros behind the last whole one.
    pub fn records(&self) -> Vec<u8> {
        let mut bytes = vec![0; self.records_len as usize];
        let (records, _) = bytes.as_chunks_mut();
        records.fill(self.filler);
        for patch in &self.patches {
            let past = records.iter_mut().skip(patch.first as usize);
            past.take(patch.count as usize)
                .for_each(|record| *record = patch.record);
        }
        bytes
    }

    /// The paper's answer.
    pub fn refusal(&self) -> Result<u8, String> {
        let (records, field_len) = (self.records(), self.field_len.into());
        let record = self.record()?;
        Ok(paper::save_answer(
            &record,
            &self.place,
            &records,
            field_len,
        ))
    }

    /// The lent field after the Rust's save. Where the rows start past the frame the Rust may stop,
    /// and the paper has no rows to save.
    pub fn saved(&self) -> Result<Vec<u8>, String> {
        if !self.damage.is_none() {
            return Err("a damaged frame record is accepted".to_string());
        }
        let lent = lent(self.field_len as usize);
        let present = self.frame.present.map(|flag| flag == 1);
        let records = rust_records(self.records());
        let description = &self.frame.description;
        match save::save(description, present, &self.place, &records, &lent) {
            Outcome::Gave(field) => Ok(field),
            Outcome::Panicked if self.starts_past_the_frame() => Ok(lent),
            Outcome::Panicked => Err("the Rust panicked in save".to_string()),
        }
    }

    fn starts_past_the_frame(&self) -> bool {
        self.place.window.row_start > self.frame.description.height.div_ceil(8)
    }
}

impl Case for SaveQuestion {
    fn put(&self, list: &mut List) -> Result<(), String> {
        self.frame.put(list)?;
        let answer = match self.refusal()? {
            0 => Answer::of(0).leaving(Role::SAVED, self.saved()?),
            refusal => Answer::of(refusal),
        };
        list.put(self.question()?, answer);
        Ok(())
    }
}

/// Columns and rows, for the first tile row, superblock row and pass.
pub fn place([col_start, col_end]: [u32; 2], [row_start, row_end]: [u32; 2]) -> Place {
    Place {
        window: Window {
            tile_row: 0,
            col_start,
            col_end,
            row_start,
            row_end,
        },
        superblock_row: 0,
        pass: 1,
    }
}

/// A frame of one thread with superblocks of 128 samples, whose table has all rows.
pub fn frame(width: u32, height: u32) -> FrameQuestion {
    FrameQuestion::sized(width, height, [1; 3]).with(|frame| frame.description.sb128 = 1)
}

/// The frame with each reference behind it or not.
pub fn behind(frame: FrameQuestion, flags: [bool; 7]) -> FrameQuestion {
    frame.with(|frame| {
        let current = frame.description.current_hint as u8;
        frame.description.hints =
            flags.map(|behind| if behind { current - 1 } else { current + 1 });
    })
}

/// The Rust can't hold a record whose size code is none. An accepted save doesn't read it, so zeros
/// may stand there.
fn rust_records(mut bytes: Vec<u8>) -> Vec<u8> {
    for record in bytes.as_chunks_mut::<{ RECORD_LEN as usize }>().0 {
        if leaves::record(*record).is_none() {
            *record = [0; 12];
        }
    }
    bytes
}
