//! Frames that are accepted.

use crate::question::FrameQuestion;
use crate::split_mix::SplitMix64;
use oracle::frame::Description;
use std::array;

const SIDES: [u32; 10] = [1, 7, 8, 9, 127, 128, 129, 1920, 16_383, 16_384];

/// Distances to a hint, around those where something changes.
const DISTANCES: [i32; 15] = [
    -128, -64, -33, -32, -31, -30, -1, 0, 1, 30, 31, 32, 33, 63, 127,
];

pub fn questions(random: &mut SplitMix64) -> Vec<FrameQuestion> {
    let mut questions = worked();
    questions.extend(sizes());
    questions.extend(threads());
    questions.extend(subsets());
    questions.extend(distances());
    questions.extend(distances_between_references());
    questions.extend(golden_rule());
    for bits in 0..=8 {
        questions.extend((0..24).map(|_| any(random, bits)));
    }
    questions
}

/// P9 of the paper, and the largest buffers.
fn worked() -> Vec<FrameQuestion> {
    vec![
        FrameQuestion::sized(1920, 1080, [1; 3]),
        FrameQuestion::sized(16_384, 16_384, [64, 255, 255]),
    ]
}

/// Each side against each, with both superblock sizes.
fn sizes() -> Vec<FrameQuestion> {
    let mut questions = Vec::new();
    for (w, width) in SIDES.into_iter().enumerate() {
        for (h, height) in SIDES.into_iter().enumerate() {
            let sized = FrameQuestion::sized(width, height, [1; 3]);
            questions.push(sized.with(|question| {
                question.description.sb128 = (w + h) as u32 % 2;
            }));
        }
    }
    questions
}

/// Tile rows count only with more than one tile thread, and frame threads double the records.
fn threads() -> Vec<FrameQuestion> {
    let mut questions = Vec::new();
    for tile_rows in [1, 2, 64] {
        for tile_threads in [1, 2, 255] {
            for frame_threads in [1, 2, 255] {
                let counts = [tile_rows, tile_threads, frame_threads];
                let sized = FrameQuestion::sized(129, 100, counts);
                questions.extend(
                    [0, 1].map(|sb128| sized.with(|question| question.description.sb128 = sb128)),
                );
            }
        }
    }
    questions
}

/// Every subset of the references' fields, for five frames that select differently.
fn subsets() -> Vec<FrameQuestion> {
    let base = FrameQuestion::BASE;
    let hints = base.description.hints;
    let frames = [
        base,
        // Last is left out, since its own altref is the golden frame.
        base.with(|question| question.description.hints_by_ref[0][6] = hints[3]),
        // No reference lies ahead.
        base.with(|question| question.description.hints = [19, 17, 16, 12, 20, 19, 18]),
        // Two of them are skipped: one behind, one ahead.
        base.with(|question| question.description.hints = [116, 17, 16, 12, 52, 51, 23]),
        base.with(|question| question.description.temporal = 0),
    ];
    let mut questions = Vec::new();
    for frame in frames {
        questions.extend((0..128).map(|mask| {
            frame.with(|question| question.present = array::from_fn(|i| mask >> i & 1))
        }));
    }
    questions
}

/// Each distance to each reference, which alone is present; hints wrap on the way.
fn distances() -> Vec<FrameQuestion> {
    let mut questions = Vec::new();
    for (bits, current) in [(8, 250), (6, 3)] {
        for distance in DISTANCES {
            questions
                .extend((0..7).map(|reference| at_distance(bits, current, reference, distance)));
        }
    }
    questions
}

fn at_distance(bits: u32, current: u8, reference: usize, distance: i32) -> FrameQuestion {
    hinted(bits, current).with(|question| {
        question.description.hints[reference] = moved(bits, current, distance);
        question.present = array::from_fn(|i| u8::from(i == reference));
    })
}

/// Each distance between a selected reference and those of its own frame.
fn distances_between_references() -> Vec<FrameQuestion> {
    let mut questions = Vec::new();
    for (reference, distance) in [(0, -5), (1, -31), (4, 31), (5, 5), (6, 1)] {
        for first in [0, 7, 8] {
            questions.push(at_distance(8, 250, reference, distance).with(|question| {
                let description = &mut question.description;
                let own = description.hints[reference];
                description.hints_by_ref[reference] =
                    array::from_fn(|m| moved(8, own, -DISTANCES[first + m]));
            }));
        }
    }
    questions
}

/// Last is left out exactly where the altref that its own frame had is today's golden frame.
fn golden_rule() -> Vec<FrameQuestion> {
    let hints = FrameQuestion::BASE.description.hints;
    let mut questions = Vec::new();
    for altref in [hints[3], hints[3] ^ 1, hints[3] ^ 64, hints[2], hints[6]] {
        questions.extend(
            [[1; 7], [1, 1, 0, 0, 0, 0, 0], [0, 1, 0, 0, 1, 1, 1]].map(|present| {
                FrameQuestion::BASE.with(|question| {
                    question.description.hints_by_ref[0][6] = altref;
                    question.present = present;
                })
            }),
        );
    }
    questions
}

/// The base frame with all hints at the current one.
fn hinted(bits: u32, current: u8) -> FrameQuestion {
    FrameQuestion::BASE.with(|question| {
        question.description = Description {
            hint_bits: bits,
            current_hint: current.into(),
            hints: [current; 7],
            // Were it the current hint, last would be left out.
            hints_by_ref: [[current ^ 1; 7]; 7],
            ..question.description
        };
    })
}

/// The hint at a distance, modulo 2^bits.
fn moved(bits: u32, hint: u8, distance: i32) -> u8 {
    (i32::from(hint) + distance).rem_euclid(1 << bits) as u8
}

fn any(random: &mut SplitMix64, bits: u32) -> FrameQuestion {
    let current = random.below(1 << bits) as u8;
    let mut hint = |near: bool| {
        let reach = if near { 40 } else { 128 };
        moved(bits, current, random.within(-reach, reach))
    };
    let hints = array::from_fn(|i| hint(i % 2 == 0));
    let hints_by_ref = array::from_fn(|_| array::from_fn(|_| hint(true)));
    FrameQuestion {
        description: Description {
            width: random.within(1, 1200) as u32,
            height: random.within(1, 16_384) as u32,
            sb128: random.below(2) as u32,
            hint_bits: bits,
            current_hint: current.into(),
            tile_rows: random.within(1, 64) as u32,
            tile_threads: random.within(1, 3) as u32,
            frame_threads: random.within(1, 3) as u32,
            temporal: u32::from(random.below(5) != 0),
            hints,
            hints_by_ref,
        },
        present: array::from_fn(|_| u8::from(random.below(4) != 0)),
    }
}
