//! Real frames, `real/frames.bin`, with what a traced decoder made of them.

use crate::damage::SKIPPED;
use crate::files;
use crate::question::FrameQuestion;
use crate::sequences;
use oracle::frame::Description;
use oracle::frame::Finished;
use std::array;
use std::path::Path;

const FILE: &str = "real/frames.bin";

const MAGIC: &[u8; 8] = b"MVFRAME1";

const BODY_LEN: usize = Description::BODY_LEN;

const EXPECTED_LEN: usize = 38;

const FRAME_LEN: usize = BODY_LEN + 1 + EXPECTED_LEN;

/// A frame as it stands in the file.
pub struct RealFrame([u8; FRAME_LEN]);

/// Takes the frame set-ups out of a folder of traced sequences and writes `real/frames.bin`.
pub fn take(folder: &Path) -> Result<(), String> {
    let frames = sequences::frames(folder)?;
    if frames.is_empty() {
        return Err(format!("{}: no frames", folder.display()));
    }
    let count = u32::try_from(frames.len()).map_err(|error| error.to_string())?;
    let mut bytes = MAGIC.to_vec();
    bytes.extend(count.to_le_bytes());
    for frame in &frames {
        bytes.extend(shortened(frame));
    }
    files::write(Path::new(FILE), &bytes)?;
    println!("{count} frames taken");
    Ok(())
}

/// Leaves out the frame number, the two flags that setup doesn't read, the numbers of the fields
/// lent, and the tile columns.
fn shortened(event: &[u8; sequences::FRAME_LEN]) -> Vec<u8> {
    let body_and_present = &event[2..70];
    let expected = &event[86..];
    let [selected, in_use] = [expected[0], expected[1]];
    [body_and_present, &[selected, in_use], &expected[3..]].concat()
}

pub fn frames() -> Result<Vec<RealFrame>, String> {
    let bytes = files::read(Path::new(FILE))?;
    let malformed = || format!("{FILE} is malformed");
    let (count, frames) = bytes
        .strip_prefix(MAGIC)
        .and_then(|rest| rest.split_first_chunk())
        .ok_or_else(malformed)?;
    let (frames, rest) = frames.as_chunks();
    if !rest.is_empty() || frames.len() != u32::from_le_bytes(*count) as usize {
        return Err(malformed());
    }
    Ok(frames.iter().copied().map(RealFrame).collect())
}

impl RealFrame {
    /// A frame set-up as it stands in a sequence.
    pub fn of_event(event: &[u8; sequences::FRAME_LEN]) -> Self {
        let bytes = shortened(event);
        Self(bytes.try_into().expect("the event has its length"))
    }

    pub fn question(&self) -> FrameQuestion {
        let body = self.0.first_chunk().expect("a frame is longer");
        FrameQuestion {
            description: Description::from_body(body),
            present: bits(self.0[BODY_LEN]),
        }
    }

    /// Whether the Rust's record has what the traced decoder had.
    pub fn equals(&self, finished: &Finished) -> bool {
        self.0[BODY_LEN + 1..] == expected(finished)
    }
}

/// The Rust's record in the form of the traced decoder's: selected, temporal in use, the two sets
/// of sign bits, 7 distances, then references, ref2cur and ref2ref of the three slots.
fn expected(finished: &Finished) -> Vec<u8> {
    let mut bytes = vec![
        finished.n_mfmvs as u8,
        finished.use_ref_frame_mvs as u8,
        mask(finished.sign_bias),
        mask(finished.mfmv_sign),
    ];
    bytes.extend(finished.pocdiff.map(|distance| distance as u8));
    bytes.extend(finished.mfmv_ref);
    bytes.extend(finished.mfmv_ref2cur.map(|distance| match distance {
        Some(distance) => distance as u8,
        None => SKIPPED as u8,
    }));
    let ref2ref = finished.mfmv_ref2ref.as_flattened();
    bytes.extend(ref2ref.iter().map(|&distance| distance as u8));
    bytes
}

/// Bit i as flag i.
fn bits(mask: u8) -> [u8; 7] {
    array::from_fn(|i| mask >> i & 1)
}

fn mask(flags: [u8; 7]) -> u8 {
    (0..7).map(|i| flags[i] << i).sum()
}

#[cfg(test)]
mod tests {
    use super::*;

    #[test]
    fn all_frames_are_there() {
        assert_eq!(frames().unwrap().len(), 260);
    }

    #[test]
    fn each_traced_byte_counts() {
        let frame = frames().unwrap().pop().unwrap();
        let finished = frame.question().finished().unwrap();
        assert!(frame.equals(&finished));
        for at in BODY_LEN + 1..FRAME_LEN {
            let mut other = RealFrame(frame.0);
            other.0[at] ^= 1;
            assert!(!other.equals(&finished), "byte {at}");
        }
    }
}
