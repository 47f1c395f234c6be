//! The two forms in which a run can be written down share their last line.

use super::listing::answer_of;
use super::trace::entry_line;
use crate::machine::{Answer, Order, Seen};

/// An entry carried out, the first one being 1.
pub struct Entry<'a> {
    pub number: u64,
    pub process: u64,
    pub order: &'a Order,
    pub seen: &'a Seen,
    pub answer: Option<&'a Answer>,
}

pub struct Form {
    /// The bytes that its program lends.
    pub lent: usize,
    /// The bytes that must be left at the start and before each entry.
    pub room: usize,
    /// The line of an entry, if it has one.
    pub line: fn(&Entry) -> Option<String>,
}

/// The longest answer line (713 bytes) and the longest last line always fit.
pub const LISTING: Form = Form {
    lent: 65_536,
    room: 744,
    line: answer_of,
};

/// 128 bytes more, for what a line has before the answer.
pub const TRACE: Form = Form {
    lent: 3_145_728,
    room: 872,
    line: entry_line,
};

pub fn last_line(number: u8, entries: u64) -> String {
    match number {
        0 => format!("end {entries}"),
        _ => format!("refused {number} {entries}"),
    }
}
