//! Schedule texts (docs/NOTATION.md), each run on a bench of its own. A run
//! takes less than 640 KiB of stack, on Moir's bench less than 128 KiB.

use std::fmt;

use crate::refusals::{number_of, outcome, Refusal};

/// What a text run returns: whether it came to its `end`, the commands
/// carried out and the bytes written.
#[derive(Clone, Copy, PartialEq, Eq, Debug)]
pub struct TextRun {
    pub outcome: Result<(), Refusal>,
    pub entries: usize,
    pub written: usize,
}

impl TextRun {
    /// 0 at `end`, or the C of `refused C E`.
    pub fn number(&self) -> u8 {
        number_of(self.outcome)
    }
}

/// Where a text run stopped.
#[derive(Clone, Copy, PartialEq, Eq, Debug)]
pub enum Stop {
    /// Too little room, or too long a text: it is not looked at.
    NotRead,
    /// The text is not right: the first byte after which none could be.
    AtFault(usize),
    /// At the end, or at the first line, for a number out of its range.
    AtNoItem(Sizes),
    /// At the item whose entry is refused.
    AtItem(Sizes, Item),
}

/// N and W, as the first line has them.
#[derive(Clone, Copy, PartialEq, Eq, Debug)]
pub struct Sizes {
    pub n: u64,
    pub w: u64,
}

/// An item by its first byte, and its process, 16 for every number above 15.
#[derive(Clone, Copy, PartialEq, Eq, Debug)]
pub struct Item {
    pub place: usize,
    pub process: u64,
}

/// What `./schedule` says of a run on standard error: where and why it was
/// refused, and which calls are open at its end, a line each.
#[derive(Clone, PartialEq, Eq, Debug)]
pub struct Message(String);

impl fmt::Display for Message {
    fn fmt(&self, to: &mut fmt::Formatter<'_>) -> fmt::Result {
        to.write_str(&self.0)
    }
}

/// A run with its stop and its message.
#[derive(Clone, PartialEq, Eq, Debug)]
pub struct Explained {
    pub run: TextRun,
    pub stop: Stop,
    pub message: Message,
}

#[repr(C)]
pub(crate) struct Stopped {
    kind: u8,
    place: usize,
    n: u64,
    w: u64,
    process: u64,
}

impl From<Stopped> for Stop {
    fn from(stopped: Stopped) -> Stop {
        let Stopped {
            kind,
            place,
            n,
            w,
            process,
        } = stopped;
        match kind {
            0 => Stop::NotRead,
            1 => Stop::AtFault(place),
            2 => Stop::AtNoItem(Sizes { n, w }),
            _ => Stop::AtItem(Sizes { n, w }, Item { place, process }),
        }
    }
}

#[repr(C)]
struct Reported {
    run: Ran,
    stop: Stopped,
}

#[repr(C)]
struct Said {
    run: Ran,
    stop: Stopped,
    told: usize,
    whole: bool,
}

#[repr(C)]
struct Ran {
    number: u8,
    entries: usize,
    written: usize,
}

impl From<Ran> for TextRun {
    fn from(ran: Ran) -> TextRun {
        TextRun {
            outcome: outcome(ran.number),
            entries: ran.entries,
            written: ran.written,
        }
    }
}

type Run = unsafe extern "C" fn(*const u8, usize, *mut u8, usize) -> Ran;
type Explain = unsafe extern "C" fn(*const u8, usize, *mut u8, usize, *mut u8, usize) -> Said;

type Report = unsafe extern "C" fn(*const u8, usize, *mut u8, usize) -> Reported;

extern "C" {
    fn besklaun_run_text(
        text: *const u8,
        text_count: usize,
        listing: *mut u8,
        listing_count: usize,
    ) -> Ran;

    fn besklaun_trace_text(
        text: *const u8,
        text_count: usize,
        trace: *mut u8,
        trace_count: usize,
    ) -> Ran;

    fn besklaun_run_text_with_report(
        text: *const u8,
        text_count: usize,
        listing: *mut u8,
        listing_count: usize,
    ) -> Reported;

    fn besklaun_trace_text_with_report(
        text: *const u8,
        text_count: usize,
        trace: *mut u8,
        trace_count: usize,
    ) -> Reported;

    fn besklaun_explain_text(
        text: *const u8,
        text_count: usize,
        listing: *mut u8,
        listing_count: usize,
        words: *mut u8,
        words_count: usize,
    ) -> Said;

    fn besklaun_explain_trace(
        text: *const u8,
        text_count: usize,
        trace: *mut u8,
        trace_count: usize,
        words: *mut u8,
        words_count: usize,
    ) -> Said;

    fn besklaun_moir_run_text(
        text: *const u8,
        text_count: usize,
        listing: *mut u8,
        listing_count: usize,
    ) -> Ran;

    fn besklaun_moir_trace_text(
        text: *const u8,
        text_count: usize,
        trace: *mut u8,
        trace_count: usize,
    ) -> Ran;

    fn besklaun_moir_run_text_with_report(
        text: *const u8,
        text_count: usize,
        listing: *mut u8,
        listing_count: usize,
    ) -> Reported;

    fn besklaun_moir_trace_text_with_report(
        text: *const u8,
        text_count: usize,
        trace: *mut u8,
        trace_count: usize,
    ) -> Reported;

    fn besklaun_mark_trace(
        trace: *const u8,
        trace_count: usize,
        marked: *mut u8,
        marked_count: usize,
    ) -> usize;
}

fn ran(run: Run, text: &[u8], into: &mut [u8]) -> TextRun {
    // SAFETY: the function is one of those above; pointer and count are those
    // of slices, and the borrow checker keeps the two apart
    let ran = unsafe { run(text.as_ptr(), text.len(), into.as_mut_ptr(), into.len()) };
    ran.into()
}

/// A text run whose listing goes to the bytes lent, 744 or more.
pub fn run_text(text: &[u8], listing: &mut [u8]) -> TextRun {
    ran(besklaun_run_text, text, listing)
}

/// The same run with its trace (docs/TRACE.md), 872 bytes or more.
pub fn trace_text(text: &[u8], trace: &mut [u8]) -> TextRun {
    ran(besklaun_trace_text, text, trace)
}

/// The same text on Moir's bench, with its listing.
pub fn moir_run_text(text: &[u8], listing: &mut [u8]) -> TextRun {
    ran(besklaun_moir_run_text, text, listing)
}

/// The same text on Moir's bench, with its trace.
pub fn moir_trace_text(text: &[u8], trace: &mut [u8]) -> TextRun {
    ran(besklaun_moir_trace_text, text, trace)
}

fn reported(run: Report, text: &[u8], into: &mut [u8]) -> (TextRun, Stop) {
    // SAFETY: as above
    let Reported { run, stop } =
        unsafe { run(text.as_ptr(), text.len(), into.as_mut_ptr(), into.len()) };
    (run.into(), stop.into())
}

/// The run with its listing, and where it stopped.
pub fn run_text_with_report(text: &[u8], listing: &mut [u8]) -> (TextRun, Stop) {
    reported(besklaun_run_text_with_report, text, listing)
}

/// The run with its trace, and where it stopped.
pub fn trace_text_with_report(text: &[u8], trace: &mut [u8]) -> (TextRun, Stop) {
    reported(besklaun_trace_text_with_report, text, trace)
}

/// The run on Moir's bench with its listing, and where it stopped.
pub fn moir_run_text_with_report(text: &[u8], listing: &mut [u8]) -> (TextRun, Stop) {
    reported(besklaun_moir_run_text_with_report, text, listing)
}

/// The run on Moir's bench with its trace, and where it stopped.
pub fn moir_trace_text_with_report(text: &[u8], trace: &mut [u8]) -> (TextRun, Stop) {
    reported(besklaun_moir_trace_text_with_report, text, trace)
}

/// The marks of a trace of [`trace_text`] (docs/TRACE.md): before each line two
/// columns, `~ ` where its command could change places with that of the line
/// before it. What does not fit is not written; three times the bytes of the
/// trace are enough. It returns the length of the marked trace; 0 for more than
/// 4,294,967,295 bytes, which no trace has.
pub fn mark_trace(trace: &[u8], marked: &mut [u8]) -> usize {
    // SAFETY: pointer and count are those of slices, and the borrow checker
    // keeps the two apart
    unsafe {
        besklaun_mark_trace(
            trace.as_ptr(),
            trace.len(),
            marked.as_mut_ptr(),
            marked.len(),
        )
    }
}

/// `BESKLAUN_MESSAGE_ROOM`: room enough for every message.
const MESSAGE_ROOM: usize = 4096;

fn explained(explain: Explain, text: &[u8], into: &mut [u8]) -> Explained {
    let mut words = [0; MESSAGE_ROOM];
    // SAFETY: the function is one of the two above; pointer and count are
    // those of slices, and the borrow checker keeps the three apart
    let said = unsafe {
        explain(
            text.as_ptr(),
            text.len(),
            into.as_mut_ptr(),
            into.len(),
            words.as_mut_ptr(),
            words.len(),
        )
    };
    debug_assert!(said.whole, "a message that fills its room");
    let message = String::from_utf8_lossy(&words[..said.told]);
    Explained {
        run: said.run.into(),
        stop: said.stop.into(),
        message: Message(message.into_owned()),
    }
}

/// The run with its listing, where it stopped, and what is to be said of it.
pub fn explain_text(text: &[u8], listing: &mut [u8]) -> Explained {
    explained(besklaun_explain_text, text, listing)
}

/// The same with its trace.
pub fn explain_trace(text: &[u8], trace: &mut [u8]) -> Explained {
    explained(besklaun_explain_trace, text, trace)
}
