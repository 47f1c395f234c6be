//! The machine of document 01: shared places with links, process records,
//! and Figure 2 carried out one access at a time.

mod access;
mod bench;
mod buffers;
mod command;
mod half;
mod linked;
mod load;
mod process;
mod record;
mod step;
mod store;
mod tally;
mod wrong;

pub use access::{Access, Act, Links, Place, Seen, Values};
pub use bench::{Bench, Lent, Sizes};
pub use command::{Answer, Order, Reply};
pub use half::Half;
pub use linked::Linked;
pub use process::{Line, Own, Process, Request, Tag};
pub use record::Record;
pub use tally::Tally;
pub use wrong::Wrong;
