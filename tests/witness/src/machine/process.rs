//! What each process owns, and where it stands in Figure 2.

use super::half::Half;

/// The next access of a process. Lines with two accesses have two places.
#[derive(Clone, Copy, PartialEq, Eq, Debug)]
pub enum Line {
    Idle,
    L1,
    L2,
    L3,
    L4,
    L5,
    L6,
    L7Validate,
    L7Copy,
    L8,
    L9,
    L10,
    L11,
    L12,
    L12Validate,
    L13,
    L14,
    L14Validate,
    L15,
    L17,
    L18,
    L19,
    L23,
}

impl Line {
    /// Its number in Figure 2; 0 for idle.
    pub fn number(self) -> u8 {
        match self {
            Line::Idle => 0,
            Line::L1 => 1,
            Line::L2 => 2,
            Line::L3 => 3,
            Line::L4 => 4,
            Line::L5 => 5,
            Line::L6 => 6,
            Line::L7Validate | Line::L7Copy => 7,
            Line::L8 => 8,
            Line::L9 => 9,
            Line::L10 => 10,
            Line::L11 => 11,
            Line::L12 | Line::L12Validate => 12,
            Line::L13 => 13,
            Line::L14 | Line::L14Validate => 14,
            Line::L15 => 15,
            Line::L17 => 17,
            Line::L18 => 18,
            Line::L19 => 19,
            Line::L23 => 23,
        }
    }
}

/// The content of X.
#[derive(Clone, Copy, PartialEq, Eq, Debug)]
pub struct Tag {
    pub buffer: usize,
    pub sequence: usize,
}

impl Tag {
    /// What X and every copy of it hold at the set-up.
    pub const FIRST: Tag = Tag {
        buffer: 0,
        sequence: 0,
    };
}

/// The content of a Help place.
#[derive(Clone, Copy, PartialEq, Eq, Debug)]
pub struct Request {
    pub helpme: bool,
    pub buffer: usize,
}

/// What a process has for each record.
#[derive(Clone, PartialEq, Eq, Debug)]
pub struct Own {
    /// The buffer it owns.
    pub mybuf: usize,
    /// Its copy of X.
    pub x: Tag,
    /// An LL of this process on this record was answered.
    pub linked: bool,
}

#[derive(Clone, PartialEq, Eq, Debug)]
pub struct Process {
    pub sets: Vec<Own>,
    /// The record of the open call; 0 when idle.
    pub record: usize,
    pub return_area: Vec<u64>,
    pub offer_area: Vec<u64>,
    pub line: Line,
    /// Half moves made in a run of words.
    pub word_place: usize,
    /// Own steps since the start of the open call.
    pub count: u64,
    pub b: usize,
    pub c: usize,
    pub d: usize,
    pub e: usize,
}

impl Process {
    pub fn new(mybuf: usize, words: usize, records: usize) -> Process {
        let own = Own {
            mybuf,
            x: Tag::FIRST,
            linked: false,
        };
        Process {
            sets: vec![own; records],
            record: 0,
            return_area: vec![0; words],
            offer_area: vec![0; words],
            line: Line::Idle,
            word_place: 0,
            count: 0,
            b: 0,
            c: 0,
            d: 0,
            e: 0,
        }
    }

    /// Its set for the record of the open call.
    pub fn own(&mut self) -> &mut Own {
        &mut self.sets[self.record]
    }

    /// The word and the half that its next move in a run of words is about.
    pub fn half_to_move(&self) -> (usize, Half) {
        Half::of_move(self.word_place)
    }
}
