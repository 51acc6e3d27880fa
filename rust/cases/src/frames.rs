//! Random frames: what setup is asked, and finished records.

use oracle::frame;
use oracle::frame::Description;
use oracle::paper::FrameRecord;
use oracle::record::frame_record;
use shared::split_mix::SplitMix64;

/// The references that setup may select.
const SELECTABLE: [u8; 5] = [0, 1, 4, 5, 6];

/// How large a frame may be.
#[derive(Clone, Copy)]
pub struct Limits {
    pub side: usize,
    pub tile_rows: usize,
}

/// The whole domain.
pub const WHOLE: Limits = Limits {
    side: 16_384,
    tile_rows: 64,
};

/// Frames whose buffers are compared at each case.
pub const SMALL: Limits = Limits {
    side: 320,
    tile_rows: 4,
};

/// Frames of which only a few are compared.
pub const LARGE: Limits = Limits {
    side: 4096,
    tile_rows: 4,
};

/// What frame setup is asked, with numbers as wide as the port takes them.
#[derive(Clone, Debug)]
pub struct Question {
    /// Width, height, tile rows, tile threads, frame threads.
    pub numbers: [usize; 5],
    pub sb128: u8,
    pub hint_bits: u32,
    pub current_hint: u32,
    pub hints: [u8; 7],
    pub hints_by_ref: [u8; 49],
    pub temporal: u8,
    pub present: [u8; 7],
}

impl Question {
    /// For the Rust and the paper. A number past 32 bits is past every limit, and so is the largest
    /// of 32 bits.
    pub fn description(&self) -> Description {
        let [width, height, tile_rows, tile_threads, frame_threads] = self.numbers.map(cut);
        let by_ref = self.hints_by_ref.as_chunks().0;
        Description {
            width,
            height,
            sb128: self.sb128.into(),
            hint_bits: self.hint_bits,
            current_hint: self.current_hint,
            tile_rows,
            tile_threads,
            frame_threads,
            temporal: self.temporal.into(),
            hints: self.hints,
            hints_by_ref: by_ref.try_into().expect("seven times seven hints"),
        }
    }
}

/// A number for the paper.
pub fn cut(number: usize) -> u32 {
    number.try_into().unwrap_or(u32::MAX)
}

/// A question that is accepted.
pub fn question(random: &mut SplitMix64, limits: Limits) -> Question {
    let hint_bits = random.below(9) as u32;
    let current = random.below(1 << hint_bits) as i32;
    let mut hint = || {
        let reach = [3, 40, 128][random.below(3)];
        (current + random.within(-reach, reach)).rem_euclid(1 << hint_bits) as u8
    };
    let hints = std::array::from_fn(|_| hint());
    let hints_by_ref = std::array::from_fn(|_| hint());
    let threads = |random: &mut SplitMix64| [1, 1, 2, 1 + random.below(255)][random.below(4)];
    Question {
        numbers: [
            side(random, limits.side),
            side(random, limits.side),
            1 + random.below(limits.tile_rows),
            threads(random),
            threads(random),
        ],
        sb128: random.below(2) as u8,
        hint_bits,
        current_hint: current as u32,
        hints,
        hints_by_ref,
        temporal: u8::from(random.below(6) != 0),
        present: std::array::from_fn(|_| u8::from(random.below(4) != 0)),
    }
}

/// Small sides as often as large ones; also the limit itself.
fn side(random: &mut SplitMix64, limit: usize) -> usize {
    let most = [limit, 16, 160, 1100][random.below(4)].min(limit);
    match random.below(40) {
        0 => limit,
        _ => 1 + random.below(most),
    }
}

/// A well-formed record. Each fourth has fields that setup wouldn't give together.
pub fn record(random: &mut SplitMix64, limits: Limits) -> FrameRecord {
    let question = question(random, limits);
    let description = question.description();
    let present = question.present.map(|flag| flag == 1);
    let finished = frame::setup_without_buffers(&description, present);
    let finished = finished.gave().expect("the Rust sets up what is accepted");
    let mut record = frame_record(&description, &finished);
    if random.below(4) == 0 {
        for _ in 0..=random.below(8) {
            change(random, &mut record);
        }
    }
    record
}

/// Changes a field within its range.
fn change(random: &mut SplitMix64, record: &mut FrameRecord) {
    let hint = &mut record.hints[random.below(7)];
    let slot = &mut record.slots[random.below(3)];
    match random.below(10) {
        0 => record.sbsz = 48 - record.sbsz,
        1 => record.use_ref_frame_mvs ^= 1,
        2 => record.temporal ^= 1,
        3 => record.n_mfmvs = random.below(4) as u8,
        4 => hint.sign_bias ^= 1,
        5 => hint.mfmv_sign ^= 1,
        6 => hint.pocdiff = random.within(-31, 31) as i8,
        7 => slot.reference = SELECTABLE[random.below(5)],
        8 => {
            let distance = random.within(-31, 31) as i8;
            slot.ref2cur = [None, Some(distance), Some(distance)][random.below(3)];
        }
        _ => slot.ref2ref[random.below(7)] = random.within(0, 31) as u8,
    }
}

#[cfg(test)]
mod tests {
    use super::*;
    use oracle::paper;

    #[test]
    fn questions_and_records_are_accepted() {
        let mut random = SplitMix64::new(2);
        for _ in 0..1000 {
            let question = question(&mut random, WHOLE);
            let answer = paper::setup_answer(&question.description(), question.present);
            assert_eq!(answer, 0);
            assert_eq!(paper::record_answer(&record(&mut random, WHOLE)), 0);
        }
    }
}
