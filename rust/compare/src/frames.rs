//! Random frames for the port.

use crate::codec;
use jaskkovir::calls;
use jaskkovir::Frame;
use oracle::paper;
use shared::split_mix::SplitMix64;

pub use cases::frames::cut;
pub use cases::frames::question;
pub use cases::frames::record;
pub use cases::frames::Question;
pub use cases::frames::LARGE;
pub use cases::frames::SMALL;
pub use cases::frames::WHOLE;

/// What frame setup is asked, for the port.
pub fn asked(question: &Question) -> calls::Description<'_> {
    let [width, height, tile_rows, tile_threads, frame_threads] = question.numbers;
    calls::Description {
        width,
        height,
        sb128: question.sb128,
        hint_bits: question.hint_bits,
        current_hint: question.current_hint,
        hints: &question.hints,
        hints_by_ref: &question.hints_by_ref,
        tile_rows,
        tile_threads,
        frame_threads,
        temporal: question.temporal,
    }
}

/// Changes bytes of a record at random, or one of its numbers to one at a limit.
pub fn damage(random: &mut SplitMix64, bytes: &mut [u8; Frame::LEN]) {
    const SIZES: usize = 12;
    match random.below(3) {
        0 => bytes[random.below(Frame::LEN)] = random.bytes::<1>()[0],
        1 => {
            for _ in 0..=random.below(4) {
                bytes[random.below(Frame::LEN)] = random.bytes::<1>()[0];
            }
        }
        _ => {
            let at = 4 * random.below(SIZES);
            let own = u32::from_le_bytes(std::array::from_fn(|i| bytes[at + i]));
            let near = own.wrapping_add_signed(random.within(-9, 9));
            let edges = [
                0,
                1,
                16,
                32,
                64,
                65,
                255,
                256,
                16_384,
                16_385,
                u32::MAX,
                near,
            ];
            let put = edges[random.below(edges.len())];
            bytes[at..at + 4].copy_from_slice(&put.to_le_bytes());
        }
    }
}

/// Changes bytes of a record until it is refused.
pub fn ruin(random: &mut SplitMix64, bytes: &mut [u8; Frame::LEN]) {
    while paper::record_answer(&codec::frame_at(bytes)) == 0 {
        damage(random, bytes);
    }
}
