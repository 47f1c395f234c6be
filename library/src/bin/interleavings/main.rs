//! `interleavings`: every schedule of two lists of calls, each carried out and
//! judged by the proved library (docs/INTERLEAVINGS.md). Of this program
//! itself nothing is proved.

mod bench;
mod carrying;
mod case;
mod every;
mod plan;
mod progress;
mod report;
mod shared_out;
mod signals;
mod state;
mod survey;
mod text;
mod trace;

use std::io::{stdin, stdout, ErrorKind, Read, Write};
use std::process::ExitCode;

use bench::Bench;
use case::Case;
use plan::Plan;
use progress::say;
use report::report;

/// A plan is no longer.
const MOST_BYTES: u64 = 65_536;

/// Why there is no report: a refusal, by the bench, the numbering or the
/// judge, and what is printed of it; or trouble.
#[derive(Debug)]
pub enum Ended {
    Refused(String),
    Trouble(String),
}

impl Ended {
    fn refused(cause: besklaun::Refusal) -> Ended {
        Ended::Refused(format!("{cause}\n"))
    }
}

fn main() -> ExitCode {
    let (printed, status) = match surveyed() {
        Ok(report) => (report, 0),
        Err(Ended::Refused(told)) => (told, 1),
        Err(Ended::Trouble(told)) => return trouble(&told),
    };
    let written = stdout().write_all(printed.as_bytes());
    match written.and_then(|()| stdout().flush()) {
        Ok(()) => {}
        // nobody reads on: as a program that the signal PIPE ends
        Err(error) if error.kind() == ErrorKind::BrokenPipe => return ExitCode::from(141),
        Err(error) => return trouble(&format!("standard output can't be written: {error}")),
    }
    if signals::came() {
        signals::follow();
    }
    ExitCode::from(status)
}

/// The one argument is the name of the plan's file, for the message.
fn trouble(told: &str) -> ExitCode {
    let file = std::env::args_os().nth(1);
    let named = file.map_or(String::new(), |file| {
        format!("{}: ", file.to_string_lossy())
    });
    say(&format!("interleavings: {named}{told}\n"));
    ExitCode::from(2)
}

fn surveyed() -> Result<String, Ended> {
    let plan = Plan::read(&given()?).map_err(Ended::Trouble)?;
    let case = Case::of(&plan, Bench::of(&plan))?;
    let survey = match plan.turns {
        Some(turns) => every::of_turns(&plan, &case, turns)?,
        None => every::to_the_end(&plan, &case)?,
    };
    Ok(report(&case, &survey))
}

fn given() -> Result<String, Ended> {
    let trouble = |told: &str| Ended::Trouble(format!("the plan {told}"));
    let mut bytes = Vec::new();
    let read = stdin().take(MOST_BYTES + 1).read_to_end(&mut bytes);
    read.map_err(|error| trouble(&format!("can't be read: {error}")))?;
    if bytes.len() as u64 > MOST_BYTES {
        return Err(trouble("has more than 65,536 bytes"));
    }
    String::from_utf8(bytes).map_err(|_| trouble("is no text"))
}
