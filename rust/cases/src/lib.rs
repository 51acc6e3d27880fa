//! Random frames, records and searches, and real searches, for all that needs no library of the
//! port.

pub mod codec;
pub mod found;
pub mod frames;
pub mod judge;
pub mod layout;
pub mod palette;
pub mod partition;
pub mod random;
pub mod real;
pub mod records;
pub mod scene;
