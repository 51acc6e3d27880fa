//! A search.

use crate::list::Answer as Answered;
use crate::list::Case;
use crate::list::Function;
use crate::list::List;
use crate::list::Question;
use cases::codec::ask_bytes;
use cases::codec::tile_bytes;
use cases::found::unread;
use cases::judge::fixes_the_same;
use cases::real;
use oracle::paper;
use oracle::paper::FrameRecord;
use oracle::paper::Lent;
use oracle::paper::RowTable;
use oracle::paper::Searched;
use oracle::search;
use oracle::search::Answer;
use oracle::search::Ask;
use oracle::search::Prepared;
use oracle::search::SLOTS;
use oracle::search::SLOT_LEN;
use shared::desk::lent;
use shared::desk::Role;

pub const RECORD_LEN: usize = 12;
pub const CELL_LEN: usize = 5;

/// The most bytes that a case lends as records and as projection.
pub const MOST_RECORDS: u32 = 81_000;
pub const MOST_CELLS: u32 = 4_000;

/// The most records and cells that a search of the list reads: those of the real ones.
pub const RECORDS: usize = 20;
pub const CELLS: usize = 18;

/// What isn't patched, byte by byte.
const ILL: u8 = 255;

/// Places and what stands there.
pub type Patches<const N: usize> = Vec<(u32, [u8; N])>;

/// A search in lent bytes.
#[derive(Clone)]
pub struct FindQuestion {
    pub record: FrameRecord,
    pub table: RowTable,
    pub ask: Ask,
    /// How many bytes of records and of the projection are lent.
    pub lens: [u32; 2],
    /// All else of both is ill-formed.
    pub records: Patches<RECORD_LEN>,
    pub cells: Patches<CELL_LEN>,
    /// What a traced decoder found.
    pub traced: Option<Answer>,
}

/// The listed sizes in bytes, of records and of the projection.
pub fn listed(record: &FrameRecord) -> [u32; 2] {
    let records = RECORD_LEN as u64 * paper::listed_records(record);
    let cells = CELL_LEN as u64 * 16 * u64::from(record.n_blocks);
    [records, cells].map(|len| len.try_into().unwrap_or(u32::MAX))
}

impl FindQuestion {
    /// Whether the list can have the case.
    pub fn fits(&self) -> bool {
        self.lens[0] <= MOST_RECORDS
            && self.lens[1] <= MOST_CELLS
            && self.records.len() <= RECORDS
            && self.cells.len() <= CELLS
    }

    /// The paper's answer.
    pub fn searched(&self) -> Result<Searched, u8> {
        let [records, projection] = self.buffers([ILL; RECORD_LEN], [ILL; CELL_LEN]);
        let lent = Lent {
            record: &self.record,
            table: &self.table,
            records: &records,
            projection: &projection,
        };
        paper::search(&lent, &self.ask)
    }

    /// What an accepted search finds: the Rust's, where it can be asked, and the traced decoder's,
    /// where there is one. They must leave the same as the paper's.
    pub fn found(&self, searched: &Searched) -> Result<Answer, String> {
        let mut answers: Vec<Answer> = self.traced.into_iter().collect();
        if search::can_ask(&self.ask) {
            answers.extend(self.by_rust()?);
        }
        let compound = self.ask.is_compound();
        let is_other = |it: &&Answer| !fixes_the_same(compound, it, &searched.answer);
        match answers.iter().find(is_other) {
            Some(other) => Err(format!("found {other:?}, the paper {searched:?}")),
            None => Ok(answers.first().copied().unwrap_or(searched.answer)),
        }
    }

    /// The Rust's answers, for each thing that may stand where nothing is read.
    fn by_rust(&self) -> Result<Vec<Answer>, String> {
        let ask = |record| {
            let [records, cells] = self.buffers(record, real::BAD_CELL);
            let table = (&self.table).into();
            let rust = Prepared::on_record(&self.record, &table, &records, &cells);
            let answer = search::search(&rust, &self.ask).gave();
            answer.ok_or_else(|| "the Rust panicked in a search".to_string())
        };
        unread(&self.ask).into_iter().map(ask).collect()
    }

    /// The lent records and projection: the patches, and what is given everywhere else.
    fn buffers(&self, record: [u8; RECORD_LEN], cell: [u8; CELL_LEN]) -> [Vec<u8>; 2] {
        let [records, cells] = self.lens;
        [
            patched(records, record, &self.records),
            patched(cells, cell, &self.cells),
        ]
    }
}

impl Case for FindQuestion {
    fn put(&self, list: &mut List) -> Result<(), String> {
        let [records, projection] = self.buffers([ILL; RECORD_LEN], [ILL; CELL_LEN]);
        let mut stack = [0; SLOTS * SLOT_LEN];
        stack.copy_from_slice(&lent(SLOTS * SLOT_LEN));
        let question = Question::on(Function::Find, &self.record, [0; 0])
            .lending(Role::TILE, tile_bytes(&self.table))
            .lending(Role::RECORDS, records)
            .lending(Role::PROJECTION, projection)
            .lending(Role::ASK, ask_bytes(&self.ask))
            .lending(Role::STACK, stack)
            .lending(Role::FOUND, lent(2));
        let answer = match (self.searched(), &self.traced) {
            (Ok(searched), _) => {
                let found = self.found(&searched)?;
                found.lay(self.ask.is_compound(), &mut stack);
                Answered::of(0)
                    .leaving(Role::STACK, stack)
                    .leaving(Role::FOUND, [found.count, found.context])
            }
            (Err(refusal), None) => Answered::of(refusal),
            (Err(refusal), Some(_)) => return Err(format!("a real one refused with {refusal}")),
        };
        list.put(question, answer);
        Ok(())
    }
}

/// Patches that don't fit whole are left out.
fn patched<const N: usize>(len: u32, filler: [u8; N], patches: &[(u32, [u8; N])]) -> Vec<u8> {
    let mut bytes: Vec<u8> = filler.into_iter().cycle().take(len as usize).collect();
    let (units, _) = bytes.as_chunks_mut();
    for &(place, unit) in patches {
        if let Some(at) = units.get_mut(place as usize) {
            *at = unit;
        }
    }
    bytes
}
