//! Frames at the limits of what is accepted.

use crate::question::FrameQuestion;
use oracle::frame::Description;

/// Each limit of setup's numbers with its neighbours; those inside it are accepted.
pub fn questions() -> Vec<FrameQuestion> {
    let mut questions = sizes();
    questions.extend(flags());
    questions.extend(hint_bits());
    for bits in [0, 3, 7] {
        questions.extend(hints(bits));
    }
    questions.extend(current_hints(8));
    questions.extend(both());
    questions
}

/// The base frame with its numbers changed.
fn described(change: impl FnOnce(&mut Description)) -> FrameQuestion {
    FrameQuestion::BASE.with(|question| change(&mut question.description))
}

fn sizes() -> Vec<FrameQuestion> {
    let mut questions = Vec::new();
    for side in [0, 1, 2, 16_383, 16_384, 16_385, 65_536 + 64, u32::MAX] {
        questions.push(described(|description| description.width = side));
        questions.push(described(|description| description.height = side));
    }
    for rows in [0, 1, 2, 63, 64, 65, 255, 256, 257, u32::MAX] {
        questions.extend([1, 2].map(|threads| {
            described(|description| {
                description.tile_rows = rows;
                description.tile_threads = threads;
            })
        }));
    }
    for threads in [0, 1, 2, 254, 255, 256, 257, u32::MAX] {
        questions.push(described(|description| description.tile_threads = threads));
        questions.push(described(|description| {
            description.frame_threads = threads;
        }));
    }
    questions
}

fn flags() -> Vec<FrameQuestion> {
    let mut questions = Vec::new();
    for flag in [0, 1, 2, 255, 256, 257, u32::MAX] {
        questions.push(described(|description| description.sb128 = flag));
        questions.push(described(|description| description.temporal = flag));
    }
    for reference in 0..7 {
        questions.extend(
            [0, 1, 2, 128, 255].map(|flag| {
                FrameQuestion::BASE.with(|question| question.present[reference] = flag)
            }),
        );
    }
    questions
}

/// A frame whose hints are all 0, which any number of bits allows.
fn without_hints(bits: u32) -> FrameQuestion {
    described(|description| {
        description.hint_bits = bits;
        description.current_hint = 0;
        description.hints = [0; 7];
        description.hints_by_ref = [[0; 7]; 7];
    })
}

fn hint_bits() -> Vec<FrameQuestion> {
    let beyond = [9, 10, 31, 32, 33, 64, 255, 256, 264, u32::MAX];
    (0..=8).chain(beyond).map(without_hints).collect()
}

/// Each of the 57 hints at the last that is allowed and at the next.
fn hints(bits: u32) -> Vec<FrameQuestion> {
    let limit = 1 << bits;
    let base = without_hints(bits);
    let mut questions = current_hints(bits);
    for hint in [limit - 1, limit] {
        for reference in 0..7 {
            questions.push(base.with(|question| question.description.hints[reference] = hint));
            questions.extend((0..7).map(|m| {
                base.with(|question| question.description.hints_by_ref[reference][m] = hint)
            }));
        }
    }
    questions
}

fn current_hints(bits: u32) -> Vec<FrameQuestion> {
    let limit = 1 << bits;
    [limit - 1, limit, limit + 1, u32::MAX]
        .map(|hint| without_hints(bits).with(|question| question.description.current_hint = hint))
        .to_vec()
}

/// Something that is refused with 1 and something that is refused with 2 at once.
fn both() -> Vec<FrameQuestion> {
    let firsts: [fn(&mut FrameQuestion); 8] = [
        |question| question.description.width = 0,
        |question| question.description.height = 16_385,
        |question| question.description.tile_rows = 65,
        |question| question.description.tile_threads = 0,
        |question| question.description.frame_threads = 256,
        |question| question.description.sb128 = 2,
        |question| question.description.temporal = 2,
        |question| question.present[3] = 2,
    ];
    let seconds: [fn(&mut FrameQuestion); 3] = [
        |question| question.description.hint_bits = 9,
        |question| question.description.current_hint = 128,
        |question| question.description.hints_by_ref[6][6] = 255,
    ];
    let both = |first: fn(&mut FrameQuestion)| {
        seconds.map(|second| FrameQuestion::BASE.with(first).with(second))
    };
    firsts.into_iter().flat_map(both).collect()
}
