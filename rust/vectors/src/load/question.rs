//! A load.

use crate::damage::Damage;
use crate::list::Answer;
use crate::list::Case;
use crate::list::Function;
use crate::list::List;
use crate::list::Question;
use crate::question::FrameQuestion;
use crate::record::CELL_LEN;
use oracle::load;
use oracle::paper;
use oracle::paper::FrameRecord;
use oracle::Window;
use shared::desk::lent;
use shared::desk::Role;
use std::array;

/// The most bytes that a case lends in one field, and in the projection.
pub const MOST_FIELD: u32 = 12_000;
pub const MOST_PROJECTION: u32 = 40_000;

/// A load on a frame, whose record may be damaged.
#[derive(Clone)]
pub struct LoadQuestion {
    pub frame: FrameQuestion,
    pub damage: Damage,
    pub window: Window,
    pub projection_len: u32,
    pub field: FieldLen,
    /// The present bytes that the load is handed; setup saw those of the frame.
    pub present: [u8; 7],
    pub patches: Vec<Patch>,
}

/// A field that isn't lent in its listed size.
#[derive(Clone, Copy)]
pub struct FieldLen {
    pub field: u32,
    pub len: u32,
}

impl FieldLen {
    pub const NONE: Self = Self { field: 7, len: 0 };
}

/// Cells of a field that all become the same one.
#[derive(Clone, Copy)]
pub struct Patch {
    pub field: u32,
    pub first: u32,
    pub count: u32,
    pub cell: [u8; 5],
}

impl LoadQuestion {
    /// A load with buffers of the listed sizes.
    pub fn new(frame: FrameQuestion, window: Window) -> Self {
        let finished = frame.finished().expect("a load's frame is accepted");
        let projection = u32::try_from(finished.projection).expect("a small frame");
        Self {
            frame,
            damage: Damage::NONE,
            window,
            projection_len: CELL_LEN * projection,
            field: FieldLen::NONE,
            present: frame.present,
            patches: Vec::new(),
        }
    }

    /// This question with something changed.
    pub fn with(&self, change: impl FnOnce(&mut Self)) -> Self {
        let mut changed = self.clone();
        change(&mut changed);
        changed
    }

    /// Puts cells into a field from row y, column x on.
    pub fn put(&mut self, field: u32, [y, x]: [u32; 2], count: u32, cell: [u8; 5]) {
        let first = y * self.stride() + x;
        self.patches.push(Patch {
            field,
            first,
            count,
            cell,
        });
    }

    fn stride(&self) -> u32 {
        16 * self.frame.description.width.div_ceil(128)
    }

    /// The listed size of a field in bytes, from the frame before its damage.
    pub fn listed(&self) -> u32 {
        CELL_LEN * self.stride() * self.frame.description.height.div_ceil(8)
    }

    /// The frame's record after the damage.
    fn record(&self) -> Result<FrameRecord, String> {
        Ok(self.damage.on(self.frame.record()?))
    }

    pub fn question(&self) -> Result<Question, String> {
        let numbers = self.window.numbers();
        let question = Question::on(Function::LoadTmvs, &self.record()?, numbers);
        Ok(question
            .lending(Role::PRESENT, self.present)
            .lending_fields(self.fields())
            .lending(Role::PROJECTION, lent(self.projection_len as usize)))
    }

    /// The lent fields, zero but for the patches.
    pub fn fields(&self) -> [Vec<u8>; 7] {
        array::from_fn(|at| {
            let len = if self.field.field == at as u32 {
                self.field.len
            } else {
                self.listed()
            };
            let mut bytes = vec![0; len as usize];
            let (cells, _) = bytes.as_chunks_mut();
            for patch in self.patches.iter().filter(|it| it.field == at as u32) {
                let past = cells.iter_mut().skip(patch.first as usize);
                past.take(patch.count as usize)
                    .for_each(|cell| *cell = patch.cell);
            }
            bytes
        })
    }

    /// The paper's answer.
    pub fn refusal(&self) -> Result<u8, String> {
        let fields = self.fields();
        Ok(paper::load_answer(
            &self.record()?,
            &self.window,
            self.present,
            array::from_fn(|at| fields[at].as_slice()),
            self.projection_len.into(),
        ))
    }

    /// The lent projection after the Rust's load.
    pub fn loaded(&self) -> Result<Vec<u8>, String> {
        if !self.damage.is_none() {
            return Err("a damaged frame record is accepted".to_string());
        }
        let lent = lent(self.projection_len as usize);
        let fields = self.fields();
        let fields = array::from_fn(|at| (self.present[at] == 1).then_some(fields[at].as_slice()));
        let present = self.frame.present.map(|flag| flag == 1);
        load::load(
            &self.frame.description,
            present,
            &self.window,
            fields,
            &lent,
        )
        .gave()
        .ok_or_else(|| "the Rust panicked in load".to_string())
    }
}

impl Question {
    pub fn lending_fields(self, fields: [Vec<u8>; 7]) -> Self {
        let roles = (0..).map(Role::field);
        roles.zip(fields).fold(self, |question, (role, field)| {
            question.lending(role, field)
        })
    }
}

impl Case for LoadQuestion {
    fn put(&self, list: &mut List) -> Result<(), String> {
        self.frame.put(list)?;
        let answer = match self.refusal()? {
            0 => Answer::of(0).leaving(Role::PROJECTION, self.loaded()?),
            refusal => Answer::of(refusal),
        };
        list.put(self.question()?, answer);
        Ok(())
    }
}
