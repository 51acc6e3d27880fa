//! A frame that is to be set up.

use crate::list::Answer;
use crate::list::Function;
use crate::list::List;
use crate::list::Question;
use cases::codec::frame_bytes;
use cases::codec::FRAME_LEN;
use oracle::frame;
use oracle::frame::Description;
use oracle::frame::Finished;
use oracle::paper;
use oracle::paper::FrameRecord;
use oracle::record::frame_record;
use shared::desk::lent;
use shared::desk::Role;

#[derive(Clone, Copy)]
pub struct FrameQuestion {
    pub description: Description,
    /// A byte for each reference's field; 0 and 1 are the legal ones.
    pub present: [u8; 7],
}

impl FrameQuestion {
    /// A small frame with references behind and ahead, from which most cases start.
    pub const BASE: Self = Self {
        description: Description {
            width: 200,
            height: 100,
            sb128: 0,
            hint_bits: 7,
            current_hint: 20,
            tile_rows: 1,
            tile_threads: 1,
            frame_threads: 1,
            temporal: 1,
            hints: [19, 17, 16, 12, 24, 23, 21],
            hints_by_ref: [
                [18, 17, 16, 12, 26, 24, 28],
                [16, 12, 11, 8, 20, 19, 24],
                [12, 11, 8, 4, 20, 17, 24],
                [8, 4, 3, 0, 16, 16, 20],
                [19, 17, 16, 12, 28, 27, 32],
                [20, 19, 17, 12, 24, 24, 28],
                [20, 19, 17, 16, 24, 23, 22],
            ],
        },
        present: [1; 7],
    };

    /// A frame of this size, with tile rows, tile threads and frame threads.
    pub fn sized(
        width: u32,
        height: u32,
        [tile_rows, tile_threads, frame_threads]: [u32; 3],
    ) -> Self {
        Self::BASE.with(|question| {
            question.description.width = width;
            question.description.height = height;
            question.description.tile_rows = tile_rows;
            question.description.tile_threads = tile_threads;
            question.description.frame_threads = frame_threads;
        })
    }

    /// This frame with something changed.
    pub fn with(mut self, change: impl FnOnce(&mut Self)) -> Self {
        change(&mut self);
        self
    }

    /// Frame setup.
    pub fn setup(&self) -> Question {
        let description = &self.description;
        let numbers = [
            description.width,
            description.height,
            description.sb128,
            description.hint_bits,
            description.current_hint,
            description.tile_rows,
            description.tile_threads,
            description.frame_threads,
            description.temporal,
        ];
        Question::new(Function::InitFrame, numbers)
            .lending(Role::HINTS, description.hints)
            .lending(Role::HINTS_BY_REF, description.hints_by_ref.as_flattened())
            .lending(Role::PRESENT, self.present)
            .lending(Role::FRAME, lent(FRAME_LEN))
    }

    /// Frame setup with its answer, and how much to lend for an accepted frame.
    pub fn put(&self, list: &mut List) -> Result<(), String> {
        let refusal = self.answer();
        if refusal != 0 {
            list.put(self.setup(), Answer::of(refusal));
            return Ok(());
        }
        let (record, finished) = (self.record()?, self.finished()?);
        let set_up = Answer::of(0).leaving(Role::FRAME, frame_bytes(&record));
        list.put(self.setup(), set_up);
        let saved = (record.stride * record.ih8) as usize;
        let sizes = [saved, finished.projection, finished.records];
        let sizes = sizes.map(|cells| (cells as u32).to_le_bytes()).concat();
        let listed = Question::on(Function::ListedSizes, &record, [0; 0])
            .lending(Role::SIZES, lent(sizes.len()));
        list.put(listed, Answer::of(0).leaving(Role::SIZES, sizes));
        Ok(())
    }

    /// The paper's answer to frame setup.
    pub fn answer(&self) -> u8 {
        paper::setup_answer(&self.description, self.present)
    }

    /// The record that the Rust makes of an accepted question.
    pub fn finished(&self) -> Result<Finished, String> {
        frame::setup(&self.description, self.present.map(|flag| flag == 1))
            .gave()
            .ok_or_else(|| "the Rust panicked in frame setup".to_string())
    }

    /// The port's record of an accepted question.
    pub fn record(&self) -> Result<FrameRecord, String> {
        let record = frame_record(&self.description, &self.finished()?);
        match paper::record_answer(&record) {
            0 => Ok(record),
            _ => Err("the paper refuses the Rust's own record".to_string()),
        }
    }
}
