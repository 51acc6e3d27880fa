//! A question of one of the small functions at the bottom, with the Rust's answer.

use crate::list;
use crate::list::Answer;
use crate::list::Function;
use crate::list::List;
use crate::list::Question;
use oracle::leaves;
use oracle::leaves::Cell;
use oracle::leaves::Record;
use oracle::leaves::Size;
use oracle::leaves::Vector;
use shared::desk::Role;

/// One question, inside the domain of the port.
#[derive(Clone, Copy)]
pub enum Case {
    Projection { mv: Vector, num: i8, den: u8 },
    Precision { mv: Vector, integer: bool, hp: bool },
    Distance { bits: u8, a: u8, b: u8 },
    Cell([u8; 5]),
    Record([u8; 12]),
    Negation(Vector),
}

impl Case {
    pub fn question(self) -> Question {
        match self {
            Self::Projection { mv, num, den } => {
                let numbers = [mv.y, mv.x, num.into(), den.into()];
                Question::new(Function::MvProjection, numbers)
            }
            Self::Precision { mv, integer, hp } => {
                let numbers = [mv.y, mv.x, integer.into(), hp.into()];
                Question::new(Function::FixMvPrecision, numbers)
            }
            Self::Distance { bits, a, b } => Question::new(Function::GetPocDiff, [bits, a, b]),
            Self::Cell(bytes) => Question::read(Function::ReadCell, bytes),
            Self::Record(bytes) => Question::read(Function::ReadRecord, bytes),
            Self::Negation(mv) => Question::new(Function::Negated, [mv.y, mv.x]),
        }
    }

    /// The Rust's answer, or nothing where the Rust gives none.
    fn answer(self) -> Option<Vec<i64>> {
        Some(match self {
            Self::Projection { mv, num, den } => {
                let mv = leaves::project(mv.y, mv.x, num.into(), den.into()).gave()?;
                numbers([mv.y, mv.x])
            }
            Self::Precision { mv, integer, hp } => {
                let mv = leaves::lower(mv.y, mv.x, integer, hp).gave()?;
                numbers([mv.y, mv.x])
            }
            Self::Distance { bits, a, b } => {
                numbers([leaves::distance(bits, a.into(), b.into()).gave()?])
            }
            Self::Cell(bytes) => {
                let Cell { mv, reference } = leaves::cell(bytes);
                let invalid = leaves::is_invalid(mv.y, mv.x);
                numbers([mv.y, mv.x, reference.into(), invalid.into()])
            }
            Self::Record(bytes) => record_numbers(leaves::record(bytes)?)?,
            Self::Negation(mv) => {
                let mv = leaves::negate(mv.y, mv.x).gave()?;
                numbers([mv.y, mv.x])
            }
        })
    }
}

impl Question {
    /// Bytes that are read, with nothing else to say.
    fn read(function: Function, bytes: impl Into<Vec<u8>>) -> Self {
        Self::new::<i64>(function, []).lending(Role::BLOCK, bytes)
    }
}

impl list::Case for Case {
    fn put(&self, list: &mut List) -> Result<(), String> {
        let answer = Answer {
            numbers: self.answer().ok_or("the Rust has no answer")?,
            after: Vec::new(),
        };
        list.put(self.question(), answer);
        Ok(())
    }
}

pub fn vector_bytes(mv: Vector) -> [u8; 4] {
    let [y0, y1] = mv.y.to_le_bytes();
    let [x0, x1] = mv.x.to_le_bytes();
    [y0, y1, x0, x1]
}

fn record_numbers(record: Record) -> Option<Vec<i64>> {
    let Record {
        mv: [first, second],
        reference: [first_ref, second_ref],
        size,
        mf,
    } = record;
    let Size { width, height } = leaves::size(size)?;
    Some(numbers([
        first.y,
        first.x,
        second.y,
        second.x,
        first_ref.into(),
        second_ref.into(),
        size.into(),
        mf.into(),
        width.into(),
        height.into(),
    ]))
}

fn numbers<N: Into<i64>, const COUNT: usize>(numbers: [N; COUNT]) -> Vec<i64> {
    numbers.map(N::into).to_vec()
}
