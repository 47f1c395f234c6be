//! `look`: the state that the entries of a schedule text leave, as tables that
//! a person reads (docs/TRACE.md). Text run, state and the words of a refusal
//! are the proved library's; what stands here is not proved: it takes the
//! commands of a run of states from the trace, and chooses the words of a
//! state.

#![forbid(unsafe_code)]

mod arguments;
#[path = "../states/buffers.rs"]
mod buffers;
#[path = "../states/commands.rs"]
mod commands;
#[path = "../states/next.rs"]
mod next;
#[path = "../states/process.rs"]
mod process;
#[path = "../states/run.rs"]
mod run;
#[path = "../states/shared.rs"]
mod shared;
#[path = "../states/station.rs"]
mod station;
mod table;

use std::ffi::OsString;
use std::io::{self, BufWriter, ErrorKind, Read, Write};
use std::process::ExitCode;

use arguments::Asked;
use run::Run;

/// A text is no longer; one byte more is read of one that is.
const MOST_TEXT: u64 = 16_384;

/// The status of a process that a closed pipe ended.
const CLOSED_PIPE: u8 = 141;

/// Why a call ends before all is printed.
pub enum Stop {
    Output(io::Error),
    Trouble(String),
}

impl From<io::Error> for Stop {
    fn from(error: io::Error) -> Stop {
        Stop::Output(error)
    }
}

fn main() -> ExitCode {
    let given: Vec<OsString> = std::env::args_os().skip(1).collect();
    match called(&given) {
        Ok(status) => ExitCode::from(status),
        Err(Stop::Output(error)) if error.kind() == ErrorKind::BrokenPipe => {
            ExitCode::from(CLOSED_PIPE)
        }
        Err(Stop::Output(error)) => trouble(&format!("standard output can't be written: {error}")),
        Err(Stop::Trouble(words)) => trouble(&words),
    }
}

fn trouble(words: &str) -> ExitCode {
    say(&format!("look: {words}"));
    ExitCode::from(2)
}

/// The status stays where standard error can't be written.
fn say(words: &str) {
    let _ = writeln!(io::stderr(), "{words}");
}

/// 0, or 1 where the text is refused.
fn called(given: &[OsString]) -> Result<u8, Stop> {
    let asked = Asked::read(given).map_err(Stop::Trouble)?;
    let run = Run::of(&text()?);
    let shown = show(&run, &asked);
    let Some(words) = run.refused() else {
        return shown.map(|()| 0);
    };
    match asked.name {
        None => say(words),
        Some(ref name) => say(&format!("{name}: {words}")),
    }
    shown.map(|()| 1)
}

fn text() -> Result<Vec<u8>, Stop> {
    let mut text = Vec::new();
    let read = io::stdin().take(MOST_TEXT + 1).read_to_end(&mut text);
    read.map_err(|error| Stop::Trouble(format!("the schedule can't be read: {error}")))?;
    Ok(text)
}

/// The states asked for, with an empty line between two; none of a text that
/// has no set-up.
fn show(run: &Run, asked: &Asked) -> Result<(), Stop> {
    let Some(sizes) = run.sizes() else {
        return Ok(());
    };
    let (from, to) = asked.states(run.entries).map_err(Stop::Trouble)?;
    asked
        .process_below(sizes.n as usize)
        .map_err(Stop::Trouble)?;
    let mut station = run.state(sizes, from);
    let mut out = BufWriter::new(io::stdout().lock());
    for entry in from..=to {
        if entry > from {
            run.carry_out(entry, &mut station).map_err(Stop::Trouble)?;
            writeln!(out)?;
        }
        table::write(&mut out, run, entry, &station, asked.process)?;
    }
    out.flush()?;
    Ok(())
}
