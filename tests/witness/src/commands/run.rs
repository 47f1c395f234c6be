//! `witness run` is the program `schedule` of document 01, `witness trace`
//! the program `trace`.

use std::io::{stderr, stdin, stdout, ErrorKind, Read, Write};
use std::process::exit;

use crate::machine::Wrong;
use crate::schedule::{listing_of, trace_of, TEXT_LIMIT};

pub fn run(wrong: Option<Wrong>) -> Result<u8, String> {
    let (listing, _, _) = listing_of(&text_given()?, wrong);
    print(&listing)
}

pub fn trace(wrong: Option<Wrong>) -> Result<u8, String> {
    print(&trace_of(&text_given()?, wrong))
}

pub fn text_given() -> Result<Vec<u8>, String> {
    let mut text = Vec::new();
    // One byte over the limit is enough to see that a text is too long.
    let taken = stdin().take(TEXT_LIMIT as u64 + 1).read_to_end(&mut text);
    taken.map_err(|error| error.to_string())?;
    Ok(text)
}

/// All of the standard input.
pub fn given() -> Result<String, String> {
    let mut text = String::new();
    let read = stdin().read_to_string(&mut text);
    read.map(|_| text).map_err(|error| error.to_string())
}

pub fn print(bytes: &[u8]) -> Result<u8, String> {
    let mut out = stdout();
    match out.write_all(bytes).and_then(|()| out.flush()) {
        Ok(()) => Ok(0),
        // nobody reads on: as a program that the signal PIPE ends
        Err(error) if error.kind() == ErrorKind::BrokenPipe => exit(141),
        Err(error) => Err(format!("standard output could not be written: {error}")),
    }
}

/// A line on standard error; one that does not get out harms nothing.
pub fn say(line: &str) {
    let _ = writeln!(stderr(), "{}", line.trim_end());
}
