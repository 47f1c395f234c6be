//! CR 2 of document 02: the sums of a season of listings, and its table.

mod fraction;
mod listings;
mod reader;

pub use fraction::Fraction;
pub use listings::{bench_listing, damaged, right, with_length};
pub use reader::LISTING_LIMIT;

/// "up to 4,096 listings"
pub const LISTINGS: u64 = 4096;

/// "a handed-in sum of 2 to the 56th or more"
pub const SUM_LIMIT: u64 = 1 << 56;

/// What one process's answers add up to.
#[derive(Clone, Copy, Debug, Default, PartialEq, Eq)]
pub struct Sum {
    pub successes: u64,
    pub scs: u64,
    pub steps: u64,
    pub lls: u64,
}

/// The number of a refusal, and for 18 the place of the first wrong byte.
#[derive(Clone, Copy, Debug, PartialEq, Eq)]
pub struct Refusal {
    pub number: u8,
    pub at: usize,
}

#[derive(Clone, Debug, PartialEq, Eq)]
pub struct Season {
    pub n: u64,
    pub w: u64,
    pub taken: u64,
    pub sums: [Sum; 16],
}

impl Season {
    pub fn empty(n: u64, w: u64) -> Season {
        Season {
            n,
            w,
            taken: 0,
            sums: [Sum::default(); 16],
        }
    }

    /// Rows 1, 2 and 9, over the sums of the N processes; 0 for none.
    pub fn refusal(&self) -> u8 {
        if !(1..=16).contains(&self.n) {
            return 1;
        }
        if !(1..=64).contains(&self.w) {
            return 2;
        }
        let large = |s: &Sum| {
            [s.successes, s.scs, s.steps, s.lls]
                .iter()
                .any(|x| *x >= SUM_LIMIT)
        };
        if self.sums[..self.n as usize].iter().any(large) {
            return 9;
        }
        0
    }

    /// Adds a listing. The sums stay where it is refused.
    pub fn add(&mut self, listing: &[u8]) -> Result<(), Refusal> {
        let refused = |number, at| Err(Refusal { number, at });
        match self.refusal() {
            0 => {}
            number => return refused(number, 0),
        }
        if self.taken >= LISTINGS {
            return refused(19, 0);
        }
        let mut sums = self.sums;
        match reader::read(listing, self.n, self.w, &mut sums) {
            Err(at) => refused(18, at),
            Ok(()) => {
                self.sums = sums;
                self.taken += 1;
                Ok(())
            }
        }
    }

    /// For each process, successful SCs over SCs and LL steps over LLs.
    pub fn table(&self) -> Result<Vec<(Fraction, Fraction)>, u8> {
        match self.refusal() {
            0 => Ok(self.sums[..self.n as usize]
                .iter()
                .map(|s| {
                    (
                        Fraction::lowest(s.successes, s.scs),
                        Fraction::lowest(s.steps, s.lls),
                    )
                })
                .collect()),
            number => Err(number),
        }
    }
}
