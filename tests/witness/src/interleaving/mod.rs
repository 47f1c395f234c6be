//! All small schedules in order (02, CR 5): their numbers, a turn at a time
//! on a station, and what all of them give.

mod all;
mod every;
mod number;
mod questions;
mod turn_lists;
mod turns;

pub use all::{interleavings, interleavings_from, Length, Listing, Plan, Survey};
pub use every::every_schedule;
pub use number::{after, number_of, schedule_of, ways, MOST_TURNS};
pub use questions::{answer, questions, Question};
pub use turn_lists::turn_list;
pub use turns::{Call, Table, TurnList, TurnRun, Turned};
