//! The state of the bench, and its set-up: a station of one or more records
//! (02, CR 10) that share their processes.

use super::access::{Place, Seen};
use super::process::{Line, Process};
use super::record::Record;
use super::tally::Tally;
use super::wrong::Wrong;

#[derive(Clone)]
pub struct Bench {
    pub(super) n: usize,
    pub(super) w: usize,
    pub(super) records: Vec<Record>,
    pub(super) processes: Vec<Process>,
    pub(super) wrong: Option<Wrong>,
    pub(super) tally: Tally,
    pub(super) seen: Seen,
    /// The process of the last command carried out.
    pub(super) latest: usize,
}

/// N, W and the number R of records.
#[derive(Clone, Copy, PartialEq, Eq, Debug)]
pub struct Sizes {
    pub n: u64,
    pub w: u64,
    pub r: u64,
}

impl Sizes {
    /// Refusals 1, 2 and 23.
    fn check(self) -> Result<(), u8> {
        match self {
            Sizes { n, .. } if !(1..=16).contains(&n) => Err(1),
            Sizes { w, .. } if !(1..=64).contains(&w) => Err(2),
            Sizes { r, .. } if !(1..=8).contains(&r) => Err(23),
            _ => Ok(()),
        }
    }

    /// "The words lent become (3R + 2) × N × W for R records."
    pub fn words_needed(self) -> u64 {
        (3 * self.r + 2) * self.n * self.w
    }
}

/// How many process records and words the caller lends.
#[derive(Clone, Copy, PartialEq, Eq, Debug)]
pub struct Lent {
    pub processes: u64,
    pub words: u64,
}

impl Bench {
    /// The set-up of one record with memory enough; takes refusals 1, 2 and 8.
    pub fn set_up(n: u64, w: u64, value: &[u64], wrong: Option<Wrong>) -> Result<Bench, u8> {
        let sizes = Sizes { n, w, r: 1 };
        sizes.check()?;
        Bench::over(sizes, value, wrong)
    }

    /// The set-up of a station; takes refusals 1, 2, 23, 3 and 8.
    pub fn station(sizes: Sizes, lent: Lent, value: &[u64]) -> Result<Bench, u8> {
        sizes.check()?;
        if lent.words < sizes.words_needed() || lent.processes < sizes.n {
            return Err(3);
        }
        Bench::over(sizes, value, None)
    }

    fn over(sizes: Sizes, value: &[u64], wrong: Option<Wrong>) -> Result<Bench, u8> {
        let (n, w, r) = (sizes.n as usize, sizes.w as usize, sizes.r as usize);
        if value.len() != w {
            return Err(8);
        }
        Ok(Bench {
            n,
            w,
            records: (0..r).map(|_| Record::new(n, value)).collect(),
            processes: (0..n).map(|p| Process::new(2 * n + p, w, r)).collect(),
            wrong,
            tally: Tally::default(),
            seen: Seen::nothing_yet(Line::Idle, 0),
            latest: 0,
        })
    }

    /// W.
    pub fn words(&self) -> usize {
        self.w
    }

    pub fn is_idle(&self, p: usize) -> bool {
        self.processes[p].line == Line::Idle
    }

    /// Whether an LL of p on record 0 was ever answered.
    pub fn has_linked(&self, p: usize) -> bool {
        self.has_linked_to(p, 0)
    }

    pub fn has_linked_to(&self, p: usize, record: usize) -> bool {
        self.processes[p].sets[record].linked
    }

    pub fn records(&self) -> &[Record] {
        &self.records
    }

    pub fn processes(&self) -> &[Process] {
        &self.processes
    }

    /// Whether all lent memory holds the same.
    pub fn same_memory(&self, other: &Bench) -> bool {
        self.records == other.records && self.processes == other.processes
    }

    /// Puts a process and an item of another station of the same sizes in
    /// place of its own.
    pub fn transplant(&mut self, from: &Bench, p: usize, record: usize, place: Place) {
        self.processes[p] = from.processes[p].clone();
        self.records[record].copy_item(&from.records[record], place);
    }

    pub fn seen(&self) -> &Seen {
        &self.seen
    }

    pub fn tally(&self) -> &Tally {
        &self.tally
    }
}
