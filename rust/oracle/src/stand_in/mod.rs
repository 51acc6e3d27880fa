//! What the supplied files name of the crate's other files, which weren't supplied (or, for
//! `internal`, can't be compiled without them). Each module holds only what is named.

pub mod attributes;
pub mod bitdepth;
pub mod const_fn;
pub mod enum_map;
pub mod in_range;
pub mod internal;
pub mod tables;
pub mod wrap_fn_ptr;
