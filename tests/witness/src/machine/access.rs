//! An access to a shared place, noted where it is made.

use super::half::Half;
use super::process::{Line, Request, Tag};

/// A shared place; a half word by its buffer, its word and which half it is.
#[derive(Clone, Copy, PartialEq, Eq, Debug)]
pub enum Place {
    X,
    Bank(usize),
    Help(usize),
    HalfWord(usize, usize, Half),
}

/// What a place holds.
#[derive(Clone, Copy, PartialEq, Eq, Debug)]
pub enum Values {
    Tag(Tag),
    Buffer(usize),
    Request(Request),
    Half(u32),
}

impl From<Tag> for Values {
    fn from(tag: Tag) -> Values {
        Values::Tag(tag)
    }
}

impl From<usize> for Values {
    fn from(buffer: usize) -> Values {
        Values::Buffer(buffer)
    }
}

impl From<Request> for Values {
    fn from(request: Request) -> Values {
        Values::Request(request)
    }
}

/// An LL and a read with what they found, an SC and a write with what they
/// would put there; an SC and a VL also with their truth.
#[derive(Clone, Copy, PartialEq, Eq, Debug)]
pub enum Act {
    Ll(Values),
    Vl(bool),
    Sc(Values, bool),
    Read(Values),
    Write(Values),
}

/// What became of the links of the place.
#[derive(Clone, Copy, PartialEq, Eq, Debug)]
pub enum Links {
    Untouched,
    OwnSet,
    AllCleared,
}

#[derive(Clone, Copy, PartialEq, Eq, Debug)]
pub struct Access {
    pub place: Place,
    pub act: Act,
    pub links: Links,
}

/// What was seen of the last command: a step has its line and makes one
/// access, a start finds its process idle and makes none.
#[derive(Clone)]
pub struct Seen {
    pub line: Line,
    /// The record of the call.
    pub record: usize,
    pub access: Option<Access>,
}

impl Seen {
    pub fn nothing_yet(line: Line, record: usize) -> Seen {
        Seen {
            line,
            record,
            access: None,
        }
    }

    pub fn note(&mut self, place: Place, act: Act, links: Links) {
        assert!(self.access.is_none(), "a step makes one access only");
        self.access = Some(Access { place, act, links });
    }
}
