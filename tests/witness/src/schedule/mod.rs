//! The schedule text, the listing and the trace, and a text run from the
//! one to the others.

mod form;
mod lines;
mod listing;
mod parse;
mod refusals;
mod run;
mod trace;
mod tree;

pub(crate) use form::{last_line, Entry};
pub use form::{Form, LISTING, TRACE};
pub(crate) use lines::Lines;
pub use listing::answer_line;
pub use parse::{parse, Fault};
pub use refusals::{told, told_place};
pub use run::{run_text, Outcome, ENTRY_LIMIT, TEXT_LIMIT};
pub use trace::place_text;
pub use tree::{Item, Schedule};

use crate::machine::{Tally, Wrong};

/// A text run as the program `schedule` makes it: the bytes it prints.
pub fn listing_of(text: &[u8], wrong: Option<Wrong>) -> (Vec<u8>, Outcome, Tally) {
    written(text, &LISTING, wrong)
}

/// A text run as the program `trace` makes it: the bytes it prints.
pub fn trace_of(text: &[u8], wrong: Option<Wrong>) -> Vec<u8> {
    written(text, &TRACE, wrong).0
}

fn written(text: &[u8], form: &Form, wrong: Option<Wrong>) -> (Vec<u8>, Outcome, Tally) {
    let mut lent = vec![0; form.lent];
    let (outcome, tally) = run_text(text, form, &mut lent, wrong);
    lent.truncate(outcome.written);
    (lent, outcome, tally)
}
