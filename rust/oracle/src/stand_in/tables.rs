//! Stand-in for `src/tables.rs`: blocks' dimensions by their names, and the identity warp.

use crate::include::dav1d::headers::Rav1dWarpedMotionParams;
use crate::include::dav1d::headers::Rav1dWarpedMotionType;
use crate::src::levels::BlockSize;

/// The fields that `src/env.rs` reads.
pub struct TxfmInfo {
    pub lw: u8,
    pub lh: u8,
    pub min: u8,
    pub max: u8,
}

/// The identity warp, with which a frame header starts.
impl Default for Rav1dWarpedMotionParams {
    fn default() -> Self {
        Self {
            r#type: Rav1dWarpedMotionType::Identity,
            matrix: [0, 0, 1 << 16, 0, 0, 1 << 16],
            abcd: [0; 4].into(),
        }
    }
}

/// Width and height in 4-sample units of a size named in samples: `Bs128x64` is 32 x 16.
const fn by_name(name: &str) -> [u8; 2] {
    let name = name.as_bytes();
    assert!(name[0] == b'B' && name[1] == b's');
    let mut samples = [0u16; 2];
    let mut side = 0;
    let mut at = 2;
    while at < name.len() {
        match name[at] {
            b'x' => side += 1,
            digit @ b'0'..=b'9' => samples[side] = samples[side] * 10 + (digit - b'0') as u16,
            _ => panic!("not the name of a size"),
        }
        at += 1;
    }
    [(samples[0] / 4) as u8, (samples[1] / 4) as u8]
}

macro_rules! dimensions_by_name {
    ($($name:ident)*) => {
        impl BlockSize {
            pub fn dimensions(self) -> [u8; 2] {
                match self {
                    $( Self::$name => const { by_name(stringify!($name)) }, )*
                }
            }
        }
    };
}

dimensions_by_name! {
    Bs128x128 Bs128x64
    Bs64x128 Bs64x64 Bs64x32 Bs64x16
    Bs32x64 Bs32x32 Bs32x16 Bs32x8
    Bs16x64 Bs16x32 Bs16x16 Bs16x8 Bs16x4
    Bs8x32 Bs8x16 Bs8x8 Bs8x4
    Bs4x16 Bs4x8 Bs4x4
}
