//! A station of several records (02, CR 10): lists of commands, the replies
//! to them and the memory they leave, and lists for comparisons.

mod author;
mod limits;
mod list;
mod lists;
mod memory;
mod replies;

pub use author::{right_set_up, words};
pub use limits::limit_lists;
pub use list::{numbers_of, order_of, written_order, Command, List, SetUp};
pub use lists::{list, short_list, small_list};
pub use memory::memory;
pub use replies::{replies, reply_line, Run};
