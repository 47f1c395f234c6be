//! Moir's bench (02, CR 8), written from that request and from Figure 6 of
//! source document 001 alone: the machine, the same schedule text on it,
//! texts for it, and a search over small histories.

mod bench;
mod command;
mod copy;
mod history;
mod run;
mod step;
mod texts;
mod wrong;

pub use bench::{Bench, TAGS};
pub use command::{Answer, Reply};
pub use history::{record, served, within_bound, Call, History, Outcome};
pub use run::{listing_of, trace_of};
pub use texts::{limit_texts, text};
pub use wrong::Wrong;
