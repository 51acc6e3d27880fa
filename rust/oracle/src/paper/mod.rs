//! Which refusal the scope paper (document 01) gives, read plainly and without the Rust, which has
//! none. 0 is acceptance.

pub mod capture;
mod frame;
mod jobs;
mod load;
mod save;
mod search;
mod sizes;
mod splat;
mod table;

pub use crate::kept::listed_records;
pub use crate::kept::saved_cells;
pub use crate::kept::FrameRecord;
pub use crate::kept::HintFields;
pub use crate::kept::RowTable;
pub use crate::kept::Slot;
pub use frame::record_answer;
pub use frame::rows_answer;
pub use frame::setup_answer;
pub use jobs::batch_answer;
pub use jobs::step_answer;
pub use jobs::steps;
pub use jobs::Handed;
pub use jobs::Job;
pub use jobs::DONE;
pub use load::load_answer;
pub use save::save_answer;
pub use search::search;
pub use search::Lent;
pub use search::Searched;
pub use splat::splat_answer;
pub use table::row_entries;
