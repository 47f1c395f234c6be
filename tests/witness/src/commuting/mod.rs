//! When two commands may change places (02, CR 13): by the items that they
//! touch, from a trace or in a run, and by trying both orders.

mod both_orders;
mod entries;
mod marks;
mod touch;
mod trace_text;

pub use both_orders::{survey, swaps, Survey};
pub use entries::entries_of;
pub use marks::marked;
pub use touch::{may_change_places, verdict_text, Item, Obstacle, Touch};
pub use trace_text::{neighbours, touches_of_trace};
