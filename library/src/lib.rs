//! The proved entries of the bench that work on plain slices, called safely.
//! What each one promises stands at its declaration in `besklaun.h`; a safe
//! slice meets all that is asked there of a pointer and its count.
//!
//! A file for each subject, as in `crates/besklaun/src`.

pub mod held;
pub mod moir;

mod board_files;
mod logs;
mod refusals;
mod schedules;
mod seasons;
mod states;
mod texts;
mod versions;
mod views;

pub use board_files::{merge, run_board, BoardRun};
pub use logs::{judge, judge_with_reason, Object, Reason, Verdict};
pub use refusals::{NoRefusal, Refusal};
pub use schedules::{number_for, schedule_after, schedule_for, Schedule};
pub use seasons::{Fraction, NotAdded, Row, Season, Sum};
pub use states::States;
pub use texts::{explain_text, explain_trace, Explained, Message};
pub use texts::{mark_trace, moir_run_text, moir_trace_text};
pub use texts::{moir_run_text_with_report, moir_trace_text_with_report};
pub use texts::{run_text, run_text_with_report, trace_text, trace_text_with_report};
pub use texts::{Item, Sizes, Stop, TextRun};
pub use versions::{version, VERSION};
pub use views::view;
