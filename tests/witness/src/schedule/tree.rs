//! A schedule as read. Groups stay groups: eight of them, one in another,
//! may stand for more entries than could ever be written out.

#[derive(Clone, PartialEq, Eq, Debug)]
pub struct Schedule {
    pub n: u64,
    pub w: u64,
    pub initial: u64,
    pub items: Vec<Item>,
}

/// The first number of an item is its process number.
#[derive(Clone, PartialEq, Eq, Debug)]
pub enum Item {
    Load(u64),
    Validate(u64),
    Step(u64),
    Finish(u64),
    Store(u64, u64),
    Group(u64, Vec<Item>),
}
