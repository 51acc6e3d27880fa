//! Jaskkovir's functions for Rust: numbers and byte slices in, a number out.
//!
//! Every function answers on any numbers and any slices. 0 is acceptance; a refusal is one of
//! [`refusal`]'s numbers, and then every lent byte is as before. Only the three [`leaves`] have a
//! domain; outside it they give nothing.
//!
//! The functions of [`calls`], [`tmvs`] and [`jobs`] take slices of any length. [`Frame`], [`Tile`],
//! [`Job`] and [`Ask`] hold the parts of a fixed size.

mod abi;
mod ask;
pub mod calls;
mod frame;
#[cfg(feature = "guarded")]
mod guarded;
pub mod jobs;
pub mod leaves;
mod lend;
pub mod refusal;
mod tile;
pub mod tmvs;

pub use ask::Ask;
pub use ask::Global;
pub use frame::Frame;
pub use frame::Listed;
pub use jobs::Job;
pub use tile::Tile;
