//! A file run on the proved bench, with its listing or its trace.

use std::ffi::OsStr;

use besklaun::{run_board, trace_text, BoardRun, Refusal};

use crate::lines::number;
use crate::records::records;
use crate::schedule::{self, MOST_ENTRIES};
use crate::{reasons, Board, Ended};

/// Room that is left before each command, and for each line of a trace.
const ROOM: usize = 744;
const TRACE_ROOM: usize = 872;

/// The numbers of the set-up.
pub struct Bench {
    pub n: u64,
    pub w: u64,
    pub initial: u32,
}

impl Bench {
    pub fn read(n: &OsStr, w: &OsStr, initial: &OsStr) -> Result<Bench, Ended> {
        let read = |word: &OsStr, what| {
            number(&word.to_string_lossy(), u32::MAX.into(), what).map_err(Ended::Trouble)
        };
        Ok(Bench {
            n: read(n, "N")?,
            w: read(w, "W")?,
            initial: read(initial, "initial number")? as u32,
        })
    }
}

/// The run and its listing. A listing has always had room in the bytes of
/// its file and 744 more; where it had not, it would be given more.
fn run(bench: &Bench, board: &Board) -> (BoardRun, Vec<u8>) {
    let mut listing = vec![0; board.bytes.len() + ROOM];
    loop {
        let (n, w) = (bench.n as usize, bench.w as usize);
        let run = run_board(n, w, bench.initial, &board.bytes, &mut listing);
        if run.outcome != Err(Refusal::NoRoom) {
            listing.truncate(run.written);
            return (run, listing);
        }
        listing = vec![0; 2 * listing.len()];
    }
}

/// What is printed, with the words of a refusal.
fn ended(run: &BoardRun, printed: Vec<u8>, bench: &Bench, board: &Board) -> Result<Vec<u8>, Ended> {
    match run.outcome {
        Ok(()) => Ok(printed),
        Err(cause) => Err(Ended::Refused {
            printed,
            words: reasons::stopped(cause, run.done, bench, board),
        }),
    }
}

pub fn listed(bench: &Bench, board: &Board) -> Result<Vec<u8>, Ended> {
    let (run, listing) = run(bench, board);
    ended(&run, listing, bench, board)
}

/// The trace is that of a schedule of the same commands, up to the one that
/// is refused. The two runs must agree.
pub fn traced(bench: &Bench, board: &Board) -> Result<Vec<u8>, Ended> {
    let (run, listing) = run(bench, board);
    if let Err(Refusal::BadTrailer | Refusal::BadRecord) = run.outcome {
        return ended(&run, listing, bench, board);
    }
    let most = run.done + usize::from(run.outcome.is_err());
    let text = schedule_of(bench, board, most)?;
    let mut trace = vec![0; TRACE_ROOM * (most.min(MOST_ENTRIES) + 1)];
    let by_text = trace_text(text.as_bytes(), &mut trace);
    if (by_text.outcome, by_text.entries) != (run.outcome, run.done) {
        return Err(Ended::Trouble(format!(
            "the run of the file gave {} after {} commands, that of its schedule {} after {}",
            run.number(),
            run.done,
            by_text.number(),
            by_text.entries
        )));
    }
    trace.truncate(by_text.written);
    ended(&run, trace, bench, board)
}

/// The schedule text of a whole file.
pub fn scheduled(bench: &Bench, board: &Board) -> Result<Vec<u8>, Ended> {
    reasons::right_file(board)?;
    let all = records(&board.bytes).count();
    schedule_of(bench, board, all).map(String::into_bytes)
}

fn schedule_of(bench: &Bench, board: &Board, most: usize) -> Result<String, Ended> {
    let items = records(&board.bytes)
        .take(most)
        .map(|(_, record)| schedule::item(record));
    schedule::text(bench, &items.collect::<Vec<_>>())
        .map_err(|words| Ended::Trouble(format!("'{}': {words}", board.name)))
}
