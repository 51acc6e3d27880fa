//! The supplied Rust, compiled unchanged, as the judge of the port.
//!
//! The public functions take and give numbers and bytes. Each calls the real function of the
//! supplied files; where that can panic, the answer is an [`Outcome`]. Only [`paper`] stands apart:
//! the Rust has no refusals, so they are read off the scope paper.

mod asked;
mod buffers;
pub mod frame;
pub mod jobs;
mod kept;
pub mod leaves;
pub mod load;
mod outcome;
pub mod paper;
pub mod record;
pub mod replay;
pub mod rows;
pub mod save;
pub mod search;
mod sequence_header;
pub mod splat;
mod stand_in;
mod window;

pub use outcome::Outcome;
pub use window::Window;

// The two modules below are the supplied files, byte for byte, under the names that they use for
// one another. `path` names the folder that a module's files stand in. All files but
// `src/internal.rs` are compiled; nothing in them may be reformatted.

#[rustfmt::skip]
#[allow(dead_code, clippy::all)]
#[path = "../../../docs/src/include"]
mod include {
    pub mod common {
        pub mod intops;
        pub use crate::stand_in::attributes;
        pub use crate::stand_in::bitdepth;
    }
    pub mod dav1d {
        pub mod headers;
    }
}

#[rustfmt::skip]
#[allow(dead_code, non_upper_case_globals, unused_unsafe, clippy::all)]
#[path = "../../../docs/src/src"]
mod src {
    pub mod align;
    pub mod assume;
    pub mod cpu;
    pub mod disjoint_mut;
    pub mod env;
    pub mod error;
    pub mod ffi_safe;
    pub mod intra_edge;
    pub mod levels;
    pub mod refmvs;
    pub mod relaxed_atomic;
    pub use crate::stand_in::const_fn;
    pub use crate::stand_in::enum_map;
    pub use crate::stand_in::in_range;
    pub use crate::stand_in::internal;
    pub use crate::stand_in::tables;
    pub use crate::stand_in::wrap_fn_ptr;
}
