//! Vectors at the precisions that a header may ask for.

use crate::leaf::case::Case;
use crate::split_mix::SplitMix64;
use oracle::leaves::Vector;

const LIMITS: [i16; 4] = [16383, 16384, -16383, -16384];

pub fn cases(random: &mut SplitMix64) -> Vec<Case> {
    let mut cases = Vec::new();
    for integer in [false, true] {
        for hp in [false, true] {
            let mut vectors = small();
            vectors.extend(limits());
            vectors.extend((0..50).map(|_| random_vector(random)));
            cases.extend(
                vectors
                    .into_iter()
                    .map(|mv| Case::Precision { mv, integer, hp }),
            );
        }
    }
    cases
}

/// Each of -20..20 once as y and once as x.
fn small() -> Vec<Vector> {
    (0..41)
        .map(|i| Vector {
            y: i - 20,
            // 7 and 41 have no common factor: each number comes once.
            x: (7 * i + 3) % 41 - 20,
        })
        .collect()
}

fn limits() -> Vec<Vector> {
    LIMITS
        .into_iter()
        .flat_map(|y| LIMITS.map(|x| Vector { y, x }))
        .collect()
}

fn random_vector(random: &mut SplitMix64) -> Vector {
    Vector {
        y: random.component(16384),
        x: random.component(16384),
    }
}
