//! What the vectors and the comparisons share: a generator with a seed, traced sequences and
//! searches, capture files, the desk of the list of calls, and lists of steps.

pub mod captures;
pub mod desk;
pub mod finds;
pub mod folder;
pub mod orders;
pub mod sequences;
pub mod split_mix;
