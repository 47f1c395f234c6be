//! Why a file, a set-up or a record is refused. The cause is the library's;
//! this only looks for the words.

use besklaun::Refusal;

use crate::records::{fault, records, TRAILER};
use crate::run::Bench;
use crate::{Board, Ended};

/// A refusal of which nothing is printed.
pub fn refused(cause: Refusal, name: &str, why: &str) -> Ended {
    Ended::Refused {
        printed: Vec::new(),
        words: format!("refused {}: '{name}': {why}", cause.number()),
    }
}

/// Whether the library takes the file: 25 and 26 are the merge's with a file
/// that has no records.
pub fn right_file(board: &Board) -> Result<(), Ended> {
    const NO_RECORDS: [u8; TRAILER] = *b"\0\0\0\0\0\0\0\0TRAL";
    match besklaun::merge(&board.bytes, &NO_RECORDS, &mut []) {
        Err(cause @ (Refusal::BadTrailer | Refusal::BadRecord)) => {
            Err(refused(cause, &board.name, &fault(cause, &board.bytes)))
        }
        _ => Ok(()),
    }
}

/// The words for a run that was refused after so many commands.
pub fn stopped(cause: Refusal, done: usize, bench: &Bench, board: &Board) -> String {
    let (name, number) = (&board.name, cause.number());
    match cause {
        Refusal::NOutOfRange => format!("refused 1: N is {}, and not 1 to 16", bench.n),
        Refusal::WOutOfRange => format!("refused 2: W is {}, and not 1 to 64", bench.w),
        Refusal::BadTrailer | Refusal::BadRecord => {
            format!("refused {number}: '{name}': {}", fault(cause, &board.bytes))
        }
        _ => format!(
            "refused {number}: '{name}': {}",
            record(cause, done, bench, board)
        ),
    }
}

/// The record that was refused: its number, counted from 1, and its place.
fn record(cause: Refusal, done: usize, bench: &Bench, board: &Board) -> String {
    let Some((place, record)) = records(&board.bytes).nth(done) else {
        return "a record".to_string();
    };
    let (process, which) = (record[8], done + 1);
    let order = [
        "a step",
        "the start of an LL",
        "the start of an SC",
        "the start of a VL",
    ];
    let asked = order[usize::from(record[9] % 4)];
    let why = match cause {
        Refusal::NoSuchProcess => format!("N is {}, so there is no process {process}", bench.n),
        Refusal::StartAtBusy => "its call is still open".to_string(),
        Refusal::StepAtIdle => "it is idle".to_string(),
        Refusal::NeverLinked => "no LL of it was answered yet".to_string(),
        _ => "it is refused".to_string(),
    };
    format!("record {which}, at byte {place}: {asked} of process {process}, but {why}")
}
