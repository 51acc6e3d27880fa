//! The check of a record and the listed sizes, on records that are whole, damaged, or both.

use crate::codec;
use crate::frames;
use crate::names;
use crate::options::Options;
use crate::tally::Tally;
use jaskkovir::calls;
use jaskkovir::Frame;
use jaskkovir::Listed;
use oracle::paper;
use oracle::paper::FrameRecord;

/// The most bytes lent behind either part.
const MORE: usize = 4;

pub fn compare(options: &Options) -> Result<Tally, String> {
    let mut random = options.random(names::CHECK);
    let mut tally = Tally::default();
    for _ in 0..options.cases(200_000, 4_000_000) {
        let record = frames::record(&mut random, frames::WHOLE);
        let whole = codec::frame_bytes(&record);
        for i in 0..10 {
            let mut bytes = whole;
            if i > 0 {
                frames::damage(&mut random, &mut bytes);
            }
            let mut frame = [0; Frame::LEN + MORE];
            frame[..Frame::LEN].copy_from_slice(&bytes);
            let len = Frame::LEN + random.below(MORE + 1);
            let lent: [u8; Listed::LEN + MORE] = random.bytes();
            let listed_len = Listed::LEN + random.below(MORE + 1);
            one(&mut tally, &frame[..len], &lent[..listed_len]);
        }
    }
    Ok(tally)
}

fn one(tally: &mut Tally, frame: &[u8], lent: &[u8]) {
    let bytes = frame.first_chunk().expect("a record is lent");
    let record = codec::frame_at(bytes);
    let wanted = paper::record_answer(&record);
    tally.count(wanted);
    let mut after = lent.to_vec();
    if wanted == 0 {
        after[..Listed::LEN].copy_from_slice(&listed(&record));
    }
    let mut sizes = lent.to_vec();
    let answers = [calls::check(frame), calls::listed_sizes(frame, &mut sizes)];
    if answers != [wanted; 2] || sizes != after {
        let size = u64::from(record.width) + u64::from(record.height);
        tally.differ(size, || {
            format!("{bytes:?}: ours {answers:?} {sizes:?}, wanted {wanted} {after:?}")
        });
    }
}

/// Saved cells, projected cells, records.
fn listed(record: &FrameRecord) -> [u8; Listed::LEN] {
    let sizes = [
        paper::saved_cells(record),
        16 * u64::from(record.n_blocks),
        paper::listed_records(record),
    ];
    let sizes = sizes.map(|size| u32::try_from(size).expect("a listed size fits four bytes"));
    let bytes: Vec<u8> = sizes.into_iter().flat_map(u32::to_le_bytes).collect();
    bytes.try_into().expect("three numbers have 12 bytes")
}
