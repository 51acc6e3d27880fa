//! Record buffers as a decoder leaves them: blocks, each with its record at all its places.

use crate::partition::Codes;
use crate::records;
use oracle::paper;
use oracle::paper::FrameRecord;
use shared::split_mix::SplitMix64;

const RECORD_LEN: usize = 12;

/// The rows of a tile row's part, three of them those above.
const ROWS: usize = 35;

/// A superblock of 64 samples.
const SIDE: usize = 16;

/// The listed records, laid out in blocks of all sizes up to 64 x 64 samples, and more bytes behind
/// them. Blocks are laid by the rows of the buffer, and cut to those of a tile row's part.
pub fn blocks(random: &mut SplitMix64, record: &FrameRecord, more: usize) -> Vec<u8> {
    let listed = RECORD_LEN * paper::listed_records(record) as usize;
    let mut bytes = records::buffer(random, listed, more);
    let (places, _) = bytes.as_chunks_mut::<RECORD_LEN>();
    let (across, codes) = (2 * record.stride as usize, Codes::new());
    let rows = listed / RECORD_LEN / across;
    for part in (0..rows).step_by(ROWS) {
        let mut blocks = Vec::new();
        for y in (0..ROWS).step_by(SIDE) {
            for x in (0..across).step_by(SIDE) {
                codes.cut(random, [part + y, x], SIDE, &mut blocks);
            }
        }
        for block in blocks {
            let mut record = records::any(random);
            record[10] = block.code;
            for row in block.y..(part + ROWS).min(block.y + block.height) {
                places[row * across + block.x..][..block.width].fill(record);
            }
        }
    }
    bytes
}
