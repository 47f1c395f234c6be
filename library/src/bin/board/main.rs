//! `board`: a board's trace file run on the proved bench, shown as lines or
//! as a schedule, and made from lines (docs/BOARDS.md). What stands here is
//! not proved: it reads and writes the files and finds the words of a
//! message.

#![forbid(unsafe_code)]

#[path = "../trace_files/files.rs"]
mod files;
mod lines;
mod reasons;
#[path = "../trace_files/records.rs"]
mod records;
mod run;
mod schedule;

use std::ffi::{OsStr, OsString};
use std::io::{self, ErrorKind, Write};
use std::path::Path;
use std::process::ExitCode;

use records::MOST_BYTES;
use run::Bench;

/// What a call comes to where it isn't just done: a refusal, with what is
/// printed of it; or trouble.
pub enum Ended {
    Refused { printed: Vec<u8>, words: String },
    Trouble(String),
}

/// The status of a process that a closed pipe ended.
const CLOSED_PIPE: u8 = 141;

fn main() -> ExitCode {
    let given: Vec<OsString> = std::env::args_os().skip(1).collect();
    let given: Vec<&OsStr> = given.iter().map(OsString::as_os_str).collect();
    match called(&given) {
        Ok(printed) => print(&printed, 0),
        Err(Ended::Refused { printed, words }) => {
            let status = print(&printed, 1);
            say(&words);
            status
        }
        Err(Ended::Trouble(words)) => trouble(&words),
    }
}

fn print(bytes: &[u8], status: u8) -> ExitCode {
    let mut out = io::stdout().lock();
    match out.write_all(bytes).and_then(|()| out.flush()) {
        Ok(()) => ExitCode::from(status),
        Err(error) if error.kind() == ErrorKind::BrokenPipe => ExitCode::from(CLOSED_PIPE),
        Err(error) => trouble(&format!("standard output can't be written: {error}")),
    }
}

/// The status stays where standard error can't be written.
fn say(words: &str) {
    let _ = writeln!(io::stderr(), "board: {words}");
}

fn trouble(words: &str) -> ExitCode {
    say(words);
    ExitCode::from(2)
}

fn called(given: &[&OsStr]) -> Result<Vec<u8>, Ended> {
    let Some((command, rest)) = given.split_first() else {
        return Err(Ended::Trouble("a command is needed".to_string()));
    };
    match (command.to_str(), rest) {
        (Some("run"), [n, w, k, file]) => run::listed(&Bench::read(n, w, k)?, &board(file)?),
        (Some("trace"), [n, w, k, file]) => run::traced(&Bench::read(n, w, k)?, &board(file)?),
        (Some("schedule"), [n, w, k, file]) => {
            run::scheduled(&Bench::read(n, w, k)?, &board(file)?)
        }
        (Some("text"), [file]) => lines::of(&board(file)?),
        (Some("make"), [text, out]) => make(text.as_ref(), out.as_ref()),
        _ => Err(Ended::Trouble("these arguments make no call".to_string())),
    }
}

/// A board's file, with its name for messages.
pub struct Board {
    pub name: String,
    pub bytes: Vec<u8>,
}

fn board(path: &OsStr) -> Result<Board, Ended> {
    let path = Path::new(path);
    let bytes = files::read(path, MOST_BYTES).map_err(Ended::Trouble)?;
    let name = path.display().to_string();
    Ok(Board { name, bytes })
}

/// OUT is written whole or not at all.
fn make(text: &Path, out: &Path) -> Result<Vec<u8>, Ended> {
    let bytes = files::read(text, lines::MOST_TEXT).map_err(Ended::Trouble)?;
    let made = lines::made(&text.display().to_string(), &bytes)?;
    files::write(out, &made).map_err(Ended::Trouble)?;
    Ok(Vec::new())
}
