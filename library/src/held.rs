//! A station that the caller holds as one list of numbers: set up, given
//! commands and looked at. The list is the state: to copy it, to compare it
//! or to go back to it needs no call. A call takes less than 8 KiB of stack.
//!
//! The functions that name places say where each number stands.

use std::ops::Range;

use crate::refusals::{outcome, Refusal};
use crate::texts::{Stop, Stopped};

/// Where N, W and R stand.
pub const N: usize = 0;
pub const W: usize = 1;
pub const R: usize = 2;

/// Process p: line, word place, count of own steps, the record of its open
/// call, b, c, d, e.
pub const fn call_place(p: usize) -> usize {
    3 + 8 * p
}

/// Record j: X's buffer, its sequence number, its links.
pub const fn record_place(j: usize) -> usize {
    131 + 179 * j
}

/// Bank[i] of record j: buffer, links.
pub const fn bank_place(j: usize, i: usize) -> usize {
    134 + 179 * j + 2 * i
}

/// Help[p] of record j: flag, buffer, links.
pub const fn help_place(j: usize, p: usize) -> usize {
    198 + 179 * j + 3 * p
}

/// What process p holds of record j: mybuf, x's buffer and sequence number,
/// and the mark of an answered LL, 0 for none.
pub const fn holding_place(j: usize, p: usize) -> usize {
    246 + 179 * j + 4 * p
}

/// The words of r records, in rows of W: the 3N buffers of record 0, of
/// record 1 and so on, N return areas, N offer areas.
pub const fn words_place(r: usize) -> usize {
    131 + 179 * r
}

/// How many numbers a station needs.
pub const fn length(n: usize, w: usize, r: usize) -> usize {
    words_place(r) + (3 * r + 2) * n * w
}

/// What a process is ordered. A start names its record.
#[derive(Clone, Copy, PartialEq, Eq, Debug)]
pub enum Order<'a> {
    Step,
    Ll(usize),
    Sc(usize, &'a [u64]),
    Vl(usize),
}

/// What a command that is not refused comes to.
#[derive(Clone, PartialEq, Eq, Debug)]
pub enum Reply {
    /// No answer yet.
    Accepted,
    /// An LL answered after so many own steps; its words stand at these
    /// places of the list.
    Ll {
        count: usize,
        words: Range<usize>,
    },
    Sc {
        count: usize,
        truth: bool,
    },
    Vl {
        count: usize,
        truth: bool,
    },
}

#[repr(C)]
struct Told {
    number: u8,
    kind: u8,
    truth: bool,
    count: usize,
    at: usize,
    words: usize,
}

#[repr(C)]
struct Turned {
    told: Told,
    passed: bool,
    left: usize,
}

#[repr(C)]
struct Run {
    number: u8,
    entries: usize,
    stop: Stopped,
}

#[repr(C)]
struct FileRan {
    number: u8,
    done: usize,
}

type Command = unsafe extern "C" fn(*mut u64, usize, usize, u8, usize, *const u64, usize) -> Told;

extern "C" {
    fn besklaun_held_set_up(
        held: *mut u64,
        held_count: usize,
        n: usize,
        w: usize,
        r: usize,
        value: *const u64,
        value_count: usize,
    ) -> u8;

    fn besklaun_held_command(
        held: *mut u64,
        held_count: usize,
        process: usize,
        order: u8,
        record: usize,
        value: *const u64,
        value_count: usize,
    ) -> Told;

    fn besklaun_held_step(
        held: *mut u64,
        held_count: usize,
        process: usize,
        order: u8,
        record: usize,
        value: *const u64,
        value_count: usize,
    ) -> Told;

    fn besklaun_turn(
        held: *mut u64,
        held_count: usize,
        process: usize,
        kind: u8,
        record: usize,
        left: usize,
        value: *const u64,
        value_count: usize,
    ) -> Turned;

    fn besklaun_held_text(
        held: *mut u64,
        held_count: usize,
        text: *const u8,
        text_count: usize,
        entries: usize,
    ) -> Run;

    fn besklaun_held_run_board(
        held: *mut u64,
        held_count: usize,
        file: *const u8,
        file_count: usize,
    ) -> FileRan;

    fn besklaun_held_places(
        held: *const u64,
        held_count: usize,
        record: usize,
        places: *mut u64,
        place_count: usize,
    ) -> u8;
}

/// A set-up for n processes, w words and r records with the given value, or
/// why it is refused, which leaves the list as it was.
pub fn set_up(
    held: &mut [u64],
    n: usize,
    w: usize,
    r: usize,
    value: &[u64],
) -> Result<(), Refusal> {
    // SAFETY: pointer and count are those of slices, and the borrow checker
    // keeps the two apart
    let number = unsafe {
        besklaun_held_set_up(
            held.as_mut_ptr(),
            held.len(),
            n,
            w,
            r,
            value.as_ptr(),
            value.len(),
        )
    };
    outcome(number)
}

/// A command to a process, on a list of any numbers; or why it is
/// refused, which leaves the list as it was.
#[inline]
pub fn command(held: &mut [u64], process: usize, order: Order<'_>) -> Result<Reply, Refusal> {
    called(besklaun_held_command, held, process, order)
}

/// The same by a look at what the command reads alone, in less time: for a
/// list that only a set-up and commands have written.
#[inline]
pub fn step(held: &mut [u64], process: usize, order: Order<'_>) -> Result<Reply, Refusal> {
    called(besklaun_held_step, held, process, order)
}

/// Where each buffer of a record is: at place b stands i where buffer b is
/// kept at the sequence number i, by Bank[i] or X, and 2N + p where process p
/// owns it. The list lent for it has 3N places or more.
pub fn places(held: &[u64], record: usize, places: &mut [u64]) -> Result<(), Refusal> {
    // SAFETY: pointer and count are those of slices, and the borrow checker
    // keeps the two apart
    let number = unsafe {
        besklaun_held_places(
            held.as_ptr(),
            held.len(),
            record,
            places.as_mut_ptr(),
            places.len(),
        )
    };
    outcome(number)
}

#[inline]
fn called(
    function: Command,
    held: &mut [u64],
    process: usize,
    order: Order<'_>,
) -> Result<Reply, Refusal> {
    let (number, record, value): (u8, usize, &[u64]) = match order {
        Order::Step => (0, 0, &[]),
        Order::Ll(record) => (1, record, &[]),
        Order::Sc(record, value) => (2, record, value),
        Order::Vl(record) => (3, record, &[]),
    };
    // SAFETY: the function is one of the two above; pointer and count are
    // those of slices, and the borrow checker keeps the two apart
    let told = unsafe {
        function(
            held.as_mut_ptr(),
            held.len(),
            process,
            number,
            record,
            value.as_ptr(),
            value.len(),
        )
    };
    reply(told)
}

fn reply(told: Told) -> Result<Reply, Refusal> {
    outcome(told.number)?;
    let Told { truth, count, .. } = told;
    Ok(match told.kind {
        1 => Reply::Ll {
            count,
            words: told.at..told.at + told.words,
        },
        2 => Reply::Sc { count, truth },
        3 => Reply::Vl { count, truth },
        _ => Reply::Accepted,
    })
}

/// A call on a process's list; it names its record.
#[derive(Clone, Copy, PartialEq, Eq, Debug)]
pub enum Call<'a> {
    Ll(usize),
    Sc(usize, &'a [u64]),
    Vl(usize),
}

/// What a turn came to: the reply of the command that it gave, or none where
/// it passed; and how many calls are left on the list.
#[derive(Clone, PartialEq, Eq, Debug)]
pub struct Turn {
    pub outcome: Result<Option<Reply>, Refusal>,
    pub left: usize,
}

/// A turn of process 0 or 1 (docs/INTERLEAVINGS.md) with these calls on its
/// list: a busy process steps; an idle one starts the first of them, which
/// leaves the list even if it is refused, or passes where there is none. A
/// refusal and a pass leave the list of numbers as it was.
pub fn turn(held: &mut [u64], process: usize, calls: &[Call<'_>]) -> Turn {
    let (kind, record, value): (u8, usize, &[u64]) = match calls.first() {
        Some(Call::Ll(record)) => (1, *record, &[]),
        Some(Call::Sc(record, value)) => (2, *record, value),
        Some(Call::Vl(record)) => (3, *record, &[]),
        None => (0, 0, &[]),
    };
    // SAFETY: pointer and count are those of slices, and the borrow checker
    // keeps the two apart
    let turned = unsafe {
        besklaun_turn(
            held.as_mut_ptr(),
            held.len(),
            process,
            kind,
            record,
            calls.len(),
            value.as_ptr(),
            value.len(),
        )
    };
    let outcome = match turned.passed {
        true => Ok(None),
        false => reply(turned.told).map(Some),
    };
    Turn {
        outcome,
        left: turned.left,
    }
}

/// What the first entries of a text came to.
#[derive(Clone, Copy, PartialEq, Eq, Debug)]
pub struct FirstEntries {
    /// `Ok` at the text's end; `TooMuch` where more commands follow than were
    /// asked for; or why the text or the next command is refused.
    pub outcome: Result<(), Refusal>,
    /// The commands carried out.
    pub entries: usize,
    /// The item of the command that was not carried out, where there is one.
    pub stop: Stop,
}

/// The state that the first entries of a schedule text leave, an entry being
/// a line of its trace: the list is set up for the text's N and W and one
/// record, and as many commands are carried out, or all that come before the
/// text's end or before one that is refused. A text that is refused before
/// its set-up leaves the list as it was. No run is refused for room.
pub fn after_text(held: &mut [u64], text: &[u8], entries: usize) -> FirstEntries {
    // SAFETY: pointer and count are those of slices, and the borrow checker
    // keeps the two apart
    let run = unsafe {
        besklaun_held_text(
            held.as_mut_ptr(),
            held.len(),
            text.as_ptr(),
            text.len(),
            entries,
        )
    };
    FirstEntries {
        outcome: outcome(run.number),
        entries: run.entries,
        stop: run.stop.into(),
    }
}

/// What a run of a board's trace file came to: whether it came to its end, and
/// the commands done.
#[derive(Clone, Copy, PartialEq, Eq, Debug)]
pub struct FileRun {
    pub outcome: Result<(), Refusal>,
    pub done: usize,
}

/// A board's trace file (docs/BOARDS.md) run on record 0: its records one by
/// one, an SC's value in all W words, up to the first refusal. It makes no
/// set-up, and where no command was done the list is as it was.
pub fn run_board(held: &mut [u64], file: &[u8]) -> FileRun {
    // SAFETY: pointer and count are those of slices, and the borrow checker
    // keeps the two apart
    let ran = unsafe {
        besklaun_held_run_board(held.as_mut_ptr(), held.len(), file.as_ptr(), file.len())
    };
    FileRun {
        outcome: outcome(ran.number),
        done: ran.done,
    }
}
