//! A splat.

use crate::damage::Damage;
use crate::list::Answer;
use crate::list::Case;
use crate::list::Function;
use crate::list::List;
use crate::list::Question;
use crate::record::RECORD_LEN;
use crate::row::RowQuestion;
use cases::codec::tile_bytes;
use oracle::paper;
use oracle::paper::RowTable;
use oracle::rows::Table;
use oracle::splat;
use oracle::splat::Block;
use shared::desk::lent;
use shared::desk::Role;

/// A splat on a row's table. The damage of the row's frame comes after row setup.
#[derive(Clone, Copy)]
pub struct SplatQuestion {
    pub row: RowQuestion,
    pub entry: EntryDamage,
    pub block: Block,
    pub record: [u8; 12],
    pub buffer_len: u32,
}

/// An entry of the table that is replaced after row setup.
#[derive(Clone, Copy)]
pub struct EntryDamage {
    pub entry: u32,
    pub value: u32,
}

impl EntryDamage {
    pub const NONE: Self = Self {
        entry: 255,
        value: 0,
    };

    /// The value that stands for an absent entry.
    const ABSENT: u32 = u32::MAX;

    pub fn absent(entry: u32) -> Self {
        let value = Self::ABSENT;
        Self { entry, value }
    }

    fn apply(self, table: &mut Table) {
        if self.entry != Self::NONE.entry {
            let value = Some(self.value).filter(|&value| value != Self::ABSENT);
            table.entries[self.entry as usize] = value.map(|offset| offset as usize);
        }
    }
}

impl SplatQuestion {
    /// A block on a row's table, with a buffer of the listed size.
    pub fn new(row: RowQuestion, block: Block, record: [u8; 12]) -> Self {
        Self {
            row,
            entry: EntryDamage::NONE,
            block,
            record,
            buffer_len: RECORD_LEN * listed_records(&row),
        }
    }

    /// This question with something changed.
    pub fn with(mut self, change: impl FnOnce(&mut Self)) -> Self {
        change(&mut self);
        self
    }

    /// The paper's answer.
    pub fn refusal(&self) -> Result<u8, String> {
        Ok(paper::splat_answer(
            &self.row.record()?,
            &RowTable::from(&self.table()?),
            &self.block,
            self.record,
            self.buffer_len.into(),
        ))
    }

    /// The places of the records that the Rust writes.
    pub fn written(&self) -> Result<Vec<usize>, String> {
        if !self.row.damage.is_none() {
            return Err("a damaged frame record is accepted".to_string());
        }
        let description = &self.row.frame.description;
        splat::splat(description, &self.table()?, &self.block, self.record)
            .gave()
            .ok_or_else(|| "the Rust panicked in splat".to_string())
    }

    fn table(&self) -> Result<Table, String> {
        let mut table = self.row.table()?;
        self.entry.apply(&mut table);
        Ok(table)
    }
}

impl Case for SplatQuestion {
    fn put(&self, list: &mut List) -> Result<(), String> {
        let undamaged = self.row.with(|row| row.damage = Damage::NONE);
        if undamaged.refusal()? != 0 {
            return Err("the row itself is refused".to_string());
        }
        undamaged.put(list)?;
        let Block {
            by4,
            bx4,
            width,
            height,
        } = self.block;
        let numbers = [by4, bx4, width, height];
        let table = RowTable::from(&self.table()?);
        let mut records = lent(self.buffer_len as usize);
        let question = Question::on(Function::SplatMv, &self.row.record()?, numbers)
            .lending(Role::TILE, tile_bytes(&table))
            .lending(Role::BLOCK, self.record)
            .lending(Role::RECORDS, records.clone());
        let answer = match self.refusal()? {
            0 => {
                let (places, _) = records.as_chunks_mut();
                self.written()?
                    .into_iter()
                    .for_each(|place| places[place] = self.record);
                Answer::of(0).leaving(Role::RECORDS, records)
            }
            refusal => Answer::of(refusal),
        };
        list.put(question, answer);
        Ok(())
    }
}

pub fn block([by4, bx4]: [u32; 2], [width, height]: [u32; 2]) -> Block {
    Block {
        by4,
        bx4,
        width,
        height,
    }
}

/// The length of the Rust's record buffer.
pub fn listed_records(row: &RowQuestion) -> u32 {
    let finished = row.frame.finished().expect("a row's frame is accepted");
    finished.records.try_into().expect("a small frame")
}
