//! Times of frame setup.

use crate::inputs;
use crate::timing::Timing;
use jaskkovir::calls;
use jaskkovir::Frame;
use oracle::frame::Prepared;
use std::hint::black_box;

const CALLS: usize = 1000;

pub fn setup() -> Timing {
    let mut frame = [0; Frame::LEN];
    let mut rust = Prepared::new(&inputs::FRAME, [true; 7]);
    let ours = || {
        for _ in 0..CALLS {
            let asked = black_box(inputs::asked());
            let answer = calls::init_frame(&asked, &inputs::PRESENT, black_box(&mut frame));
            assert_eq!(answer, 0);
        }
    };
    let rusts = || {
        for _ in 0..CALLS {
            black_box(&mut rust).call();
        }
    };
    Timing::new("frame setup", (CALLS, "call"), ours, rusts)
}
