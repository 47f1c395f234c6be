//! Trace files of boards (docs/BOARDS.md). A merge takes less than 16 KiB of
//! stack, a run less than 128 KiB.

use crate::refusals::{number_of, outcome, Refusal};

#[repr(C)]
struct Merged {
    number: u8,
    written: usize,
}

/// What a run of a file returns: whether it came to its `end`, the commands
/// done and the bytes written.
#[derive(Clone, Copy, PartialEq, Eq, Debug)]
pub struct BoardRun {
    pub outcome: Result<(), Refusal>,
    pub done: usize,
    pub written: usize,
}

impl BoardRun {
    /// 0 at `end`, or the C of `refused C E`.
    pub fn number(&self) -> u8 {
        number_of(self.outcome)
    }
}

#[repr(C)]
struct Ran {
    number: u8,
    done: usize,
    written: usize,
}

extern "C" {
    fn besklaun_run_board(
        n: usize,
        w: usize,
        initial: u32,
        file: *const u8,
        file_count: usize,
        listing: *mut u8,
        listing_count: usize,
    ) -> Ran;

    fn besklaun_merge(
        first: *const u8,
        first_count: usize,
        second: *const u8,
        second_count: usize,
        out: *mut u8,
        out_count: usize,
    ) -> Merged;
}

/// Two files made one, at the front of the bytes lent: how many bytes it has,
/// or why it is refused, which leaves all bytes as they were. Room for the
/// bytes of both files is enough.
pub fn merge(first: &[u8], second: &[u8], out: &mut [u8]) -> Result<usize, Refusal> {
    // SAFETY: pointer and count are those of slices, and the borrow checker
    // keeps the last apart from the others
    let merged = unsafe {
        besklaun_merge(
            first.as_ptr(),
            first.len(),
            second.as_ptr(),
            second.len(),
            out.as_mut_ptr(),
            out.len(),
        )
    };
    outcome(merged.number).map(|()| merged.written)
}

/// A file run on a bench of its own, set up for n processes and w words with
/// the initial number in each, up to the first refusal. The listing goes to
/// the bytes lent, 744 or more.
pub fn run_board(n: usize, w: usize, initial: u32, file: &[u8], listing: &mut [u8]) -> BoardRun {
    // SAFETY: pointer and count are those of slices, and the borrow checker
    // keeps the two apart
    let ran = unsafe {
        besklaun_run_board(
            n,
            w,
            initial,
            file.as_ptr(),
            file.len(),
            listing.as_mut_ptr(),
            listing.len(),
        )
    };
    BoardRun {
        outcome: outcome(ran.number),
        done: ran.done,
        written: ran.written,
    }
}
