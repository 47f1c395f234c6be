//! Board traces (02, CR 12): reading a trace file, merging two of them, and
//! running one on record 0 of a station.

mod cases;
mod file;
mod limits;
mod listing;
mod merge;
mod pairs;
mod run;
mod spoil;

pub use cases::{case, Case};
pub use file::{check_records, records_in, written, BoardRecord, MOST_BYTES, TRAILER};
pub use limits::{limits, Limit};
pub use listing::{printed, run_listed, Listed, Numbers};
pub use merge::merge;
pub use pairs::{pair, Pair};
pub use run::{run_file, FileRun};
pub use spoil::SPOILT;
