//! Finished frame records with a field at its limits.

use crate::damage::size_field;
use crate::damage::Damage;
use crate::damage::Kind;
use crate::damage::SKIPPED;
use crate::frame::Case;
use crate::question::FrameQuestion;
use std::ops::RangeInclusive;

const SIZE_FIELDS: RangeInclusive<u32> = 1..=12;

/// Fields of finished records at their limits and one past them: sizes first, then the rest.
pub fn cases() -> Result<Vec<Case>, String> {
    let small = FrameQuestion::sized(200, 100, [1; 3]);
    let tiled = FrameQuestion::sized(129, 16_384, [64, 255, 255]);
    let mut cases = Vec::new();
    for question in [small, tiled] {
        cases.extend(sizes(question)?);
    }
    cases.extend(sides_at_limits());
    for field in Damage::FIELDS {
        cases.extend(with_values(small, field, values(Kind::of(field))));
    }
    Ok(cases)
}

fn with_values(
    question: FrameQuestion,
    field: u32,
    values: impl IntoIterator<Item = i32>,
) -> Vec<Case> {
    let damages = values.into_iter().map(|value| Damage { field, value });
    damages.map(|damage| Case { question, damage }).collect()
}

/// Each size beside what it must be, and at its own limits.
fn sizes(question: FrameQuestion) -> Result<Vec<Case>, String> {
    let mut record = question.record()?;
    let mut cases = Vec::new();
    for field in SIZE_FIELDS {
        let own = *size_field(&mut record, field) as i32;
        let mut values = match field {
            // Eight sides have the same size in 8-sample units.
            1 | 2 => vec![0, own - 8, own - 7, own - 1, own, own + 1, 16_384, 16_385],
            7 => vec![0, 15, 16, 17, 31, 32, 33, 64],
            9 => vec![0, 1, 2, 63, 64, 65, 256],
            11 | 12 => vec![0, 1, 2, 254, 255, 256, 257],
            _ => vec![0, own - 1, own, own + 1, 2 * own],
        };
        values.push(i32::MAX);
        cases.extend(with_values(question, field, values));
    }
    Ok(cases)
}

/// The smallest frame and the largest one; a side past the limit has sizes of its own to follow.
fn sides_at_limits() -> Vec<Case> {
    let smallest = FrameQuestion::sized(1, 1, [1; 3]);
    let largest = FrameQuestion::sized(16_384, 16_384, [1; 3]);
    let mut cases = Vec::new();
    for field in [1, 2] {
        cases.extend(with_values(smallest, field, [0, 1, 2, 8, 9]));
        cases.extend(with_values(
            largest,
            field,
            [16_376, 16_377, 16_384, 16_385],
        ));
    }
    cases
}

/// The limits of a field that isn't a size.
fn values(kind: Kind) -> Vec<i32> {
    match kind {
        Kind::Size => Vec::new(),
        Kind::Flag => vec![0, 1, 2, 255],
        Kind::Count => vec![0, 1, 2, 3, 4, 255],
        Kind::Pocdiff => vec![-128, -32, -31, 31, 32, 127],
        Kind::Reference => vec![0, 1, 2, 3, 4, 5, 6, 7, 255],
        Kind::Ref2cur => vec![SKIPPED.into(), -127, -32, -31, 0, 31, 32, 127],
        Kind::Ref2ref => vec![31, 32, 255],
    }
}
