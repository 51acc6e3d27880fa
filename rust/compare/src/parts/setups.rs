//! Frame setup.

use crate::codec;
use crate::frames;
use crate::names;
use crate::options::Options;
use crate::tally::Tally;
use cases::frames::Question;
use jaskkovir::calls;
use jaskkovir::Frame;
use oracle::frame;
use oracle::paper;
use oracle::record::frame_record;
use shared::split_mix::SplitMix64;

/// The most bytes lent behind the record.
const MORE: usize = 8;

pub fn compare(options: &Options) -> Result<Tally, String> {
    let mut random = options.random(names::SETUP);
    let mut tally = Tally::default();
    for _ in 0..options.cases(1_000_000, 20_000_000) {
        let mut question = frames::question(&mut random, frames::WHOLE);
        if random.below(4) == 0 {
            ruin(&mut random, &mut question);
        }
        let lent: [u8; Frame::LEN + MORE] = random.bytes();
        let len = Frame::LEN + random.below(MORE + 1);
        one(&mut tally, &question, &lent[..len])?;
    }
    Ok(tally)
}

fn one(tally: &mut Tally, question: &Question, lent: &[u8]) -> Result<(), String> {
    let mut frame = lent.to_vec();
    let answer = calls::init_frame(&frames::asked(&question), &question.present, &mut frame);
    let description = question.description();
    let wanted = paper::setup_answer(&description, question.present);
    tally.count(wanted);
    let mut after = lent.to_vec();
    if wanted == 0 {
        let present = question.present.map(|flag| flag == 1);
        let finished = frame::setup_without_buffers(&description, present).gave();
        let finished = finished.ok_or_else(|| format!("the Rust panicked: {question:?}"))?;
        let record = frame_record(&description, &finished);
        after[..Frame::LEN].copy_from_slice(&codec::frame_bytes(&record));
    }
    if answer != wanted || frame != after {
        let size = question
            .numbers
            .iter()
            .fold(0, |sum: u64, &number| sum.saturating_add(number as u64));
        tally.differ(size, || {
            format!("{question:?}: ours {answer} {frame:?}, wanted {wanted} {after:?}")
        });
    }
    Ok(())
}

/// Moves a number to a limit or past it. Hints stay below 2^bits in some, where bits grow.
fn ruin(random: &mut SplitMix64, question: &mut Question) {
    for _ in 0..=random.below(2) {
        let byte = random.bytes::<1>()[0];
        match random.below(9) {
            0..3 => {
                let huge = [0, 1, 64, 255, 16_384].map(|low| (1 << 32) + low);
                let limits = [0, 1, 64, 65, 255, 256, 16_384, 16_385, u32::MAX as usize];
                let edges = [&huge[..], &limits, &[usize::MAX, 1 << 63]].concat();
                question.numbers[random.below(5)] = edges[random.below(edges.len())];
            }
            3 => question.sb128 = byte,
            4 => question.temporal = byte,
            5 => question.present[random.below(7)] = byte,
            6 => question.hint_bits = [0, 7, 8, 9, 16, 31, 32, 33, u32::MAX][random.below(9)],
            7 => question.current_hint = [1, 128, 255, 256, 1 << 31, u32::MAX][random.below(6)],
            _ => match random.below(56) {
                at @ ..7 => question.hints[at] = byte,
                at => question.hints_by_ref[at - 7] = byte,
            },
        }
    }
}
