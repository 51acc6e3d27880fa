//! The small functions at the bottom, a module for each kind of case.

mod case;
mod cell;
mod distance;
mod negation;
mod precision;
mod projection;
mod record;

pub use case::vector_bytes;

use crate::leaf::case::Case;
use crate::list::List;
use crate::list::SEED;
use crate::split_mix::SplitMix64;

pub fn put(list: &mut List) -> Result<(), String> {
    list.put_all("vectors, hints, cells and records", &cases())
}

fn cases() -> Vec<Case> {
    let mut random = SplitMix64::new(SEED);
    [
        projection::cases(&mut random),
        precision::cases(&mut random),
        distance::cases(&mut random),
        cell::cases(&mut random),
        record::cases(&mut random),
        negation::cases(&mut random),
    ]
    .concat()
}

#[cfg(test)]
mod tests {
    use super::*;
    use oracle::leaves::Vector;

    /// Whether the case is a question that the port must answer.
    fn in_domain(case: Case) -> bool {
        let within =
            |mv: Vector, limit: u16| mv.y.unsigned_abs() <= limit && mv.x.unsigned_abs() <= limit;
        match case {
            Case::Projection { mv, num, den } => {
                within(mv, 4095) && (-31..=31).contains(&num) && (1..=31).contains(&den)
            }
            Case::Precision { mv, .. } => within(mv, 16_384),
            Case::Distance { bits, a, b } => {
                bits <= 8 && [a, b].iter().all(|&hint| u16::from(hint) < 1 << bits)
            }
            Case::Cell(_) => true,
            Case::Record(bytes) => bytes[10] <= 21,
            Case::Negation(mv) => within(mv, 32_767),
        }
    }

    #[test]
    fn cases_are_in_their_domain() {
        assert!(cases().into_iter().all(in_domain));
        assert!(cases().len() >= 2400);
    }
}
