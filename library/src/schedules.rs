//! Small schedules (docs/INTERLEAVINGS.md): every way in which processes 0 and
//! 1 can take a and b turns, in dictionary order, with numbers from 0.

use crate::refusals::{outcome, Refusal};

/// The turns of no more than 32 + 32.
const MOST_TURNS: usize = 64;

/// The turns of a schedule, each the number of its process.
#[derive(Clone, Copy, PartialEq, Eq, Debug)]
pub struct Schedule {
    count: usize,
    turns: [u8; MOST_TURNS],
}

impl Schedule {
    pub fn turns(&self) -> &[u8] {
        &self.turns[..self.count]
    }
}

#[repr(C)]
struct FoundTurns {
    refusal: u8,
    count: usize,
}

#[repr(C)]
struct TurnsNumber {
    refusal: u8,
    number: u64,
}

#[repr(C)]
struct TurnsAfter {
    refusal: u8,
    last: bool,
}

extern "C" {
    fn besklaun_schedule_for(
        a: usize,
        b: usize,
        number: u64,
        turns: *mut u8,
        turn_count: usize,
    ) -> FoundTurns;

    fn besklaun_number_for(a: usize, b: usize, turns: *const u8, turn_count: usize) -> TurnsNumber;

    fn besklaun_schedule_after(a: usize, b: usize, turns: *mut u8, turn_count: usize)
        -> TurnsAfter;
}

/// The schedule for a number.
pub fn schedule_for(a: usize, b: usize, number: u64) -> Result<Schedule, Refusal> {
    let mut turns = [0; MOST_TURNS];
    // SAFETY: pointer and count are those of an array
    let found = unsafe { besklaun_schedule_for(a, b, number, turns.as_mut_ptr(), MOST_TURNS) };
    let count = found.count;
    outcome(found.refusal).map(|()| Schedule { count, turns })
}

/// The number for a schedule.
pub fn number_for(a: usize, b: usize, turns: &[u8]) -> Result<u64, Refusal> {
    // SAFETY: pointer and count are those of a slice
    let numbered = unsafe { besklaun_number_for(a, b, turns.as_ptr(), turns.len()) };
    outcome(numbered.refusal).map(|()| numbered.number)
}

/// The turns of the schedule after, in the place of those lent; false where
/// these were the last, which stay.
pub fn schedule_after(a: usize, b: usize, turns: &mut [u8]) -> Result<bool, Refusal> {
    // SAFETY: pointer and count are those of a slice
    let after = unsafe { besklaun_schedule_after(a, b, turns.as_mut_ptr(), turns.len()) };
    outcome(after.refusal).map(|()| !after.last)
}
