//! Projections: worked ones, limits, and those next to a half or to where they are clipped.

use crate::leaf::case::Case;
use crate::split_mix::SplitMix64;
use oracle::leaves::Vector;

const LIMIT: i16 = 4095;

/// The projection divides by this, and rounds.
const ONE: i32 = 16384;

/// From here on the quotient would round to more than 16383, and is clipped.
const CLIPPED: i32 = 16383 * ONE + ONE / 2;

/// A component with a fraction, found by search.
#[derive(Clone, Copy)]
struct Found {
    component: i16,
    num: i8,
    den: u8,
}

impl Found {
    /// What the projection divides by `ONE`. It only serves to choose cases.
    fn product(self) -> i32 {
        i32::from(self.component) * i32::from(self.num) * (ONE / i32::from(self.den))
    }

    /// Both signs of the component with both of the fraction.
    fn with_signs(self) -> [Case; 2] {
        let Self {
            component,
            num,
            den,
        } = self;
        let mv = Vector {
            y: component,
            x: -component,
        };
        [num, -num].map(|num| Case::Projection { mv, num, den })
    }
}

pub fn cases(random: &mut SplitMix64) -> Vec<Case> {
    let mut cases = worked();
    cases.extend(limits());
    for den in 1..=31 {
        let candidates = candidates(den);
        cases.extend(near_halves(&candidates, random));
        cases.extend(around_clip(&candidates, random));
    }
    cases.extend((0..300).map(|_| random_case(random, LIMIT)));
    cases.extend((0..60).map(|_| random_case(random, 64)));
    cases
}

/// P1 to P5 of the paper.
fn worked() -> Vec<Case> {
    [(100, 3, 2), (1, 1, 2), (1, 1, 3), (3, 1, 6), (LIMIT, 31, 1)]
        .map(|(component, num, den)| {
            let mv = Vector {
                y: component,
                x: -component,
            };
            Case::Projection { mv, num, den }
        })
        .to_vec()
}

/// Each limit of a component, as y and as x, against each pair of limits of the fraction.
fn limits() -> Vec<Case> {
    const COMPONENTS: [i16; 9] = [0, 1, -1, 2, -2, LIMIT - 1, 1 - LIMIT, LIMIT, -LIMIT];
    const NUMS: [i8; 8] = [-31, -30, -1, 0, 1, 2, 30, 31];
    const DENS: [u8; 8] = [1, 2, 3, 6, 7, 16, 30, 31];
    let mut cases = Vec::new();
    for (n, num) in NUMS.into_iter().enumerate() {
        for (d, den) in DENS.into_iter().enumerate() {
            cases.extend((0..COMPONENTS.len()).map(|c| {
                let mv = Vector {
                    y: COMPONENTS[c],
                    // Doubling permutes the nine places; the shift pairs them differently.
                    x: COMPONENTS[(2 * c + n + 3 * d) % COMPONENTS.len()],
                };
                Case::Projection { mv, num, den }
            }));
        }
    }
    cases
}

/// All positive components and numerators for one denominator.
fn candidates(den: u8) -> Vec<Found> {
    (1..=31)
        .flat_map(|num| {
            (1..=LIMIT).map(move |component| Found {
                component,
                num,
                den,
            })
        })
        .collect()
}

/// Exact halves, and remainders one beside the half, where there are any.
fn near_halves(candidates: &[Found], random: &mut SplitMix64) -> Vec<Case> {
    [(ONE / 2, 2), (ONE / 2 - 1, 1), (ONE / 2 + 1, 1)]
        .into_iter()
        .flat_map(|(remainder, count)| pick(candidates, count, random, |p| p % ONE == remainder))
        .flat_map(Found::with_signs)
        .collect()
}

/// The last product that isn't clipped and the first that is, and some that round to the numbers
/// around 16383. Denominators above 7 don't come that far.
fn around_clip(candidates: &[Found], random: &mut SplitMix64) -> Vec<Case> {
    let products = || candidates.iter().copied();
    let inside = products().filter(|found| found.product() < CLIPPED);
    let outside = products().filter(|found| found.product() >= CLIPPED);
    let Some(first_outside) = outside.min_by_key(|found| found.product()) else {
        return Vec::new();
    };
    let mut found = vec![first_outside];
    found.extend(inside.max_by_key(|found| found.product()));
    for rounded in [16382, 16383, 16384, 16385] {
        found.extend(pick(candidates, 2, random, |p| {
            (p + ONE / 2) / ONE == rounded
        }));
    }
    found.into_iter().flat_map(Found::with_signs).collect()
}

/// Up to `count` candidates whose product is wanted.
fn pick(
    candidates: &[Found],
    count: usize,
    random: &mut SplitMix64,
    wanted: impl Fn(i32) -> bool,
) -> Vec<Found> {
    let mut pool: Vec<Found> = candidates
        .iter()
        .copied()
        .filter(|found| wanted(found.product()))
        .collect();
    (0..count.min(pool.len()))
        .map(|_| pool.swap_remove(random.below(pool.len())))
        .collect()
}

fn random_case(random: &mut SplitMix64, limit: i16) -> Case {
    Case::Projection {
        mv: Vector {
            y: random.component(limit),
            x: random.component(limit),
        },
        num: random.component(31) as i8,
        den: random.within(1, 31) as u8,
    }
}
