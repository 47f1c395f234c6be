//! `merge FIRST SECOND OUT`: two board traces made one by the proved merge
//! (docs/BOARDS.md). What stands here is not proved: it reads and writes the
//! files and finds the words of a message.

#![forbid(unsafe_code)]

#[path = "../trace_files/files.rs"]
mod files;
mod reasons;
#[path = "../trace_files/records.rs"]
mod records;

use std::ffi::OsString;
use std::io::{self, Write};
use std::path::Path;
use std::process::ExitCode;

use records::MOST_BYTES;

/// Why there is no merge.
enum Failure {
    Refused(String),
    Trouble(String),
}

fn main() -> ExitCode {
    let given: Vec<OsString> = std::env::args_os().skip(1).collect();
    let done = match &given[..] {
        [first, second, out] => merged(first.as_ref(), second.as_ref(), out.as_ref()),
        _ => Err(Failure::Trouble(
            "FIRST, SECOND and OUT are needed".to_string(),
        )),
    };
    match done {
        Ok(()) => ExitCode::SUCCESS,
        Err(Failure::Refused(words)) => ended(1, &words),
        Err(Failure::Trouble(words)) => ended(2, &words),
    }
}

/// The status stays where standard error can't be written.
fn ended(status: u8, words: &str) -> ExitCode {
    let _ = writeln!(io::stderr(), "merge: {words}");
    ExitCode::from(status)
}

fn merged(first: &Path, second: &Path, out: &Path) -> Result<(), Failure> {
    let a = files::read(first, MOST_BYTES).map_err(Failure::Trouble)?;
    let b = files::read(second, MOST_BYTES).map_err(Failure::Trouble)?;
    let mut bytes = vec![0; a.len() + b.len()];
    let written = besklaun::merge(&a, &b, &mut bytes).map_err(|cause| {
        let reason = reasons::refused(cause, (first, &a), (second, &b));
        Failure::Refused(format!("refused {}: {reason}", cause.number()))
    })?;
    files::write(out, &bytes[..written]).map_err(Failure::Trouble)
}
