//! The judge of 02, CR 1, and logs for it to judge. A log is a list of
//! numbers, 6 + W for each call: process, kind, start place, answer place,
//! SC's or VL's 1 or 0, moment, words.

mod logger;
mod reason;
mod samples;
mod text;
mod verdict;

pub use logger::{log_of_schedule, Logger, PLACES};
pub use reason::{reason, Reason};
pub use samples::{bench_log, sample, Sample, SPOILT};
pub use text::{line_of, read, written, Fault};
pub use verdict::{judge, Verdict, MOST_CALLS};

/// What a judge is given.
#[derive(Clone, PartialEq, Eq, Debug)]
pub struct Log {
    pub n: u64,
    pub w: u64,
    pub value: Vec<u64>,
    pub numbers: Vec<u64>,
}
