//! Promise 3 by brute force: answered calls of random runs, and the search
//! for an order in which Figure 1's object gives the same answers.

mod object;
mod record;
mod search;
mod traced;

pub use object::{Kind, Object};
pub use record::{record, Call, History};
pub use search::{moments, search, served_order, Found};
pub use traced::of_text;
