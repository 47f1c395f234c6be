//! Moir's bench that the caller holds as one list of numbers, as
//! [`held`](crate::held) has a station. A call takes less than 8 KiB of stack.
//!
//! The functions that name places say where each number stands.

use std::ops::Range;

use crate::refusals::{outcome, Refusal};

/// Where N and W stand, and the header: tag, process.
pub const N: usize = 0;
pub const W: usize = 1;
pub const HEADER: usize = 2;

/// The words, in rows of W: N of the array A, the segments, N return areas,
/// N offer areas.
pub const WORDS: usize = 340;

/// The tag of segment k.
pub const fn tag_place(k: usize) -> usize {
    4 + k
}

/// Process p: line, word place, count of own steps, the mark of an answered
/// WLL (0 for none), the tag that it keeps; x, oldhdr, newhdr, h (tag,
/// process); y, z (tag, word).
pub const fn process_place(p: usize) -> usize {
    68 + 17 * p
}

/// How many numbers it needs.
pub const fn length(n: usize, w: usize) -> usize {
    WORDS + (3 * n + 1) * w
}

/// What a process is ordered.
#[derive(Clone, Copy, PartialEq, Eq, Debug)]
pub enum Order<'a> {
    Step,
    Wll,
    Sc(&'a [u64]),
    Vl,
}

/// What a command that is not refused comes to.
#[derive(Clone, PartialEq, Eq, Debug)]
pub enum Reply {
    /// No answer yet.
    Accepted,
    /// A WLL answered after so many own steps; its words stand at these
    /// places of the list.
    Wll {
        count: usize,
        words: Range<usize>,
    },
    /// A WLL that names a process that wrote during it.
    Named {
        count: usize,
        process: usize,
    },
    Sc {
        count: usize,
        truth: bool,
    },
    Vl {
        count: usize,
        truth: bool,
    },
}

#[repr(C)]
struct Told {
    number: u8,
    kind: u8,
    truth: bool,
    named: u8,
    count: usize,
    at: usize,
    words: usize,
}

type Command = unsafe extern "C" fn(*mut u64, usize, usize, u8, *const u64, usize) -> Told;

extern "C" {
    fn besklaun_moir_set_up(
        held: *mut u64,
        held_count: usize,
        n: usize,
        w: usize,
        value: *const u64,
        value_count: usize,
    ) -> u8;

    fn besklaun_moir_command(
        held: *mut u64,
        held_count: usize,
        process: usize,
        order: u8,
        value: *const u64,
        value_count: usize,
    ) -> Told;

    fn besklaun_moir_step(
        held: *mut u64,
        held_count: usize,
        process: usize,
        order: u8,
        value: *const u64,
        value_count: usize,
    ) -> Told;
}

/// A set-up for n processes and w words with the given value, or why it is
/// refused, which leaves the list as it was.
pub fn set_up(held: &mut [u64], n: usize, w: usize, value: &[u64]) -> Result<(), Refusal> {
    // SAFETY: pointer and count are those of slices, and the borrow checker
    // keeps the two apart
    let number = unsafe {
        besklaun_moir_set_up(
            held.as_mut_ptr(),
            held.len(),
            n,
            w,
            value.as_ptr(),
            value.len(),
        )
    };
    outcome(number)
}

/// A command to a process, on a list of any numbers; or why it is refused,
/// which leaves the list as it was.
pub fn command(held: &mut [u64], process: usize, order: Order<'_>) -> Result<Reply, Refusal> {
    called(besklaun_moir_command, held, process, order)
}

/// The same by a look at what the command reads alone, in less time: for a
/// list that only a set-up and commands have written.
pub fn step(held: &mut [u64], process: usize, order: Order<'_>) -> Result<Reply, Refusal> {
    called(besklaun_moir_step, held, process, order)
}

fn called(
    function: Command,
    held: &mut [u64],
    process: usize,
    order: Order<'_>,
) -> Result<Reply, Refusal> {
    let (number, value): (u8, &[u64]) = match order {
        Order::Step => (0, &[]),
        Order::Wll => (1, &[]),
        Order::Sc(value) => (2, value),
        Order::Vl => (3, &[]),
    };
    // SAFETY: the function is one of the two above; pointer and count are
    // those of slices, and the borrow checker keeps the two apart
    let told = unsafe {
        function(
            held.as_mut_ptr(),
            held.len(),
            process,
            number,
            value.as_ptr(),
            value.len(),
        )
    };
    outcome(told.number)?;
    let Told { truth, count, .. } = told;
    Ok(match told.kind {
        1 => Reply::Wll {
            count,
            words: told.at..told.at + told.words,
        },
        2 => Reply::Sc { count, truth },
        3 => Reply::Vl { count, truth },
        4 => Reply::Named {
            count,
            process: told.named as usize,
        },
        _ => Reply::Accepted,
    })
}
