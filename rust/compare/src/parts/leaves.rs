//! The three leaves, exhaustively.

use crate::options::Options;
use crate::tally::Tally;
use jaskkovir::leaves;
use jaskkovir::leaves::Vector;
use oracle::leaves as rust;
use oracle::Outcome;

const FLAGS: [bool; 2] = [false, true];

/// Each component of the domain, in either place of the vector, by each num and den.
pub fn projection(_: &Options) -> Result<Tally, String> {
    const LIMIT: i16 = 4095;
    let mut tally = Tally::default();
    for num in -31..=31 {
        for den in 1..=31 {
            for c in -LIMIT..=LIMIT {
                project(&mut tally, Vector { y: c, x: -c }, num, den);
            }
        }
    }
    Ok(tally)
}

fn project(tally: &mut Tally, v: Vector, num: i16, den: i16) {
    let ours = leaves::project(v, num, den as u32);
    let rusts = rust::project(v.y, v.x, num.into(), den.into());
    tally.count_accepted(1);
    if ours != vector(rusts) {
        let size = v.y.unsigned_abs() + num.unsigned_abs() + den.unsigned_abs();
        tally.differ(size.into(), || {
            format!("{v:?} by {num}/{den}: ours {ours:?}, the Rust {rusts:?}")
        });
    }
}

/// Each component of the domain, in either place of the vector, with all flags.
pub fn precision(_: &Options) -> Result<Tally, String> {
    const LIMIT: i16 = 16_384;
    let mut tally = Tally::default();
    for c in -LIMIT..=LIMIT {
        let v = Vector { y: c, x: -c };
        for integer in FLAGS {
            for hp in FLAGS {
                let ours = leaves::lower(v, integer, hp);
                let rusts = rust::lower(v.y, v.x, integer, hp);
                tally.count_accepted(1);
                if ours != vector(rusts) {
                    tally.differ(c.unsigned_abs().into(), || {
                        format!("{v:?}, {integer}, {hp}: ours {ours:?}, the Rust {rusts:?}")
                    });
                }
            }
        }
    }
    Ok(tally)
}

/// Each pair of hints, for all numbers of bits.
pub fn distance(_: &Options) -> Result<Tally, String> {
    let mut tally = Tally::default();
    for bits in 0..=8 {
        for a in 0..1 << bits {
            for b in 0..1 << bits {
                let ours = leaves::distance(bits, a, b);
                let rusts = rust::distance(bits as u8, a as i32, b as i32);
                tally.count_accepted(1);
                if ours.map(i32::from) != rusts.gave() {
                    tally.differ((a + b).into(), || {
                        format!("{bits} bits, {a} and {b}: ours {ours:?}, the Rust {rusts:?}")
                    });
                }
            }
        }
    }
    Ok(tally)
}

fn vector(outcome: Outcome<rust::Vector>) -> Option<Vector> {
    let rust::Vector { y, x } = outcome.gave()?;
    Some(Vector { y, x })
}
