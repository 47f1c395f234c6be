//! Seasons of listings (docs/FRACTIONS.md).

use crate::refusals::{outcome, Refusal};

/// What one process's answers add up to.
#[repr(C)]
#[derive(Clone, Copy, PartialEq, Eq, Debug, Default)]
pub struct Sum {
    pub successes: u64,
    pub scs: u64,
    pub steps: u64,
    pub lls: u64,
}

/// The sums of the listings taken so far, of n processes and w words. Those
/// of processes from n on are not looked at.
#[repr(C)]
#[derive(Clone, Copy, PartialEq, Eq, Debug)]
pub struct Season {
    pub n: u64,
    pub w: u64,
    pub taken: u64,
    pub each: [Sum; 16],
}

/// Why a listing is not added.
#[derive(Clone, Copy, PartialEq, Eq, Debug)]
pub enum NotAdded {
    Refused(Refusal),
    /// It is no listing: the place of its first wrong byte.
    NoListing {
        at: usize,
    },
}

#[repr(C)]
#[derive(Clone, Copy, PartialEq, Eq, Debug)]
pub struct Fraction {
    pub over: u64,
    pub under: u64,
}

/// Of a process: successful SCs over SCs answered, and LL steps over LLs
/// answered, in lowest terms; 0 over 0 for no call.
#[repr(C)]
#[derive(Clone, Copy, PartialEq, Eq, Debug)]
pub struct Row {
    pub successes: Fraction,
    pub steps: Fraction,
}

#[repr(C)]
struct Added {
    number: u8,
    at: usize,
}

#[repr(C)]
struct Fractions {
    number: u8,
    rows: [Row; 16],
}

extern "C" {
    fn besklaun_empty_sums(n: u64, w: u64) -> Season;

    fn besklaun_add_listing(season: *mut Season, listing: *const u8, listing_count: usize)
        -> Added;

    fn besklaun_fractions(season: *const Season) -> Fractions;
}

impl Season {
    /// The sums before the first listing.
    pub fn new(n: u64, w: u64) -> Season {
        // SAFETY: it takes any numbers
        unsafe { besklaun_empty_sums(n, w) }
    }

    /// A listing added, or why the sums stay as they were.
    pub fn add(&mut self, listing: &[u8]) -> Result<(), NotAdded> {
        // SAFETY: pointer and count are those of a slice, and the struct is
        // borrowed for the call
        let added = unsafe { besklaun_add_listing(self, listing.as_ptr(), listing.len()) };
        match outcome(added.number) {
            Ok(()) => Ok(()),
            Err(Refusal::NoListing) => Err(NotAdded::NoListing { at: added.at }),
            Err(refusal) => Err(NotAdded::Refused(refusal)),
        }
    }

    /// The table: a row for each process, or why it is refused.
    pub fn table(&self) -> Result<[Row; 16], Refusal> {
        // SAFETY: the struct is borrowed for the call
        let table = unsafe { besklaun_fractions(self) };
        outcome(table.number)?;
        Ok(table.rows)
    }
}
