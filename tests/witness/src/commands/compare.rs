//! `witness compare PROGRAM DIR` and `witness compare-trace PROGRAM DIR`:
//! another program against the simulator.

use std::fs::{self, File};
use std::path::Path;
use std::process::{Command, Stdio};

use super::files::{read_text, texts_in};
use super::run::print;
use crate::moir;
use crate::schedule::{listing_of, trace_of};

/// Listings.
pub fn compare(program: &str, dir: &str) -> Result<u8, String> {
    against_texts(program, dir, "listings", |text| listing_of(text, None).0)
}

/// Traces.
pub fn compare_trace(program: &str, dir: &str) -> Result<u8, String> {
    against_texts(program, dir, "traces", |text| trace_of(text, None))
}

/// Listings of Moir's bench.
pub fn compare_moir(program: &str, dir: &str) -> Result<u8, String> {
    against_texts(program, dir, "listings", |text| moir::listing_of(text).0)
}

/// Traces of Moir's bench.
pub fn compare_moir_trace(program: &str, dir: &str) -> Result<u8, String> {
    against_texts(program, dir, "traces", moir::trace_of)
}

pub fn against_texts(
    program: &str,
    dir: &str,
    what: &str,
    simulated: impl Fn(&[u8]) -> Vec<u8>,
) -> Result<u8, String> {
    against(program, dir, what, |path| Ok(simulated(&read_text(path)?)))
}

/// The outputs of a program for the files of a folder, each given to it as
/// standard input.
pub fn against(
    program: &str,
    dir: &str,
    what: &str,
    simulated: impl Fn(&Path) -> Result<Vec<u8>, String>,
) -> Result<u8, String> {
    let paths = texts_in(dir)?;
    for path in &paths {
        let expected = simulated(path)?;
        let printed = output_of(program, path)?;
        if printed != expected {
            print(report(path, &expected, &printed).as_bytes())?;
            let kept = Path::new(dir).join("..").join("differs.txt");
            fs::copy(path, &kept).map_err(|error| format!("{}: {error}", kept.display()))?;
            return Ok(1);
        }
    }
    print(format!("compared the {what} of {} texts, 0 differ\n", paths.len()).as_bytes())
}

/// The file itself is the standard input, so that a program which stops
/// reading early does no harm here. What it says on standard error is no
/// part of the listing.
fn output_of(program: &str, path: &Path) -> Result<Vec<u8>, String> {
    let text = File::open(path).map_err(|error| format!("{}: {error}", path.display()))?;
    let output = Command::new(program)
        .stdin(text)
        .stderr(Stdio::null())
        .output();
    Ok(output
        .map_err(|error| format!("{program}: {error}"))?
        .stdout)
}

fn report(path: &Path, expected: &[u8], printed: &[u8]) -> String {
    let (expected, printed) = (lines(expected), lines(printed));
    let at = expected
        .iter()
        .zip(&printed)
        .take_while(|(a, b)| a == b)
        .count();
    let place = format!("{} differs in line {}", path.display(), at + 1);
    let (expected, printed) = (shown(&expected, at), shown(&printed, at));
    format!("{place}\nsimulator: {expected}\nprogram:   {printed}\n")
}

/// Lines with their line feeds, since a missing one is a difference.
fn lines(bytes: &[u8]) -> Vec<&[u8]> {
    bytes.split_inclusive(|byte| *byte == b'\n').collect()
}

fn shown(lines: &[&[u8]], at: usize) -> String {
    lines.get(at).map_or("no such line".to_string(), |line| {
        line.escape_ascii().to_string()
    })
}
