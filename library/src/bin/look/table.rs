//! A state as tables.

use std::io::{self, Write};

use super::run::Run;
use super::station::Station;
use super::{buffers, process, shared};

/// The whole state after an entry, or of one process alone.
pub fn write(
    out: &mut impl Write,
    run: &Run,
    entry: usize,
    station: &Station,
    only: Option<usize>,
) -> io::Result<()> {
    let line = run.line(entry).unwrap_or("the set-up");
    writeln!(out, "after entry {entry} of {}: {line}", run.entries)?;
    if let Some(p) = only {
        columns(out, &[shared::help(station, p)])?;
        return process::write(out, station, p);
    }
    let head = |names: [&str; 3]| names.map(str::to_string);
    let mut rows = vec![head(["item", "holds", "linked"])];
    rows.extend(shared::rows(station));
    rows.push(head(["buffer", "is", "words"]));
    rows.extend(buffers::rows(station));
    columns(out, &rows)?;
    (0..station.n).try_for_each(|p| process::write(out, station, p))
}

fn columns(out: &mut impl Write, rows: &[[String; 3]]) -> io::Result<()> {
    for [item, holds, rest] in rows {
        writeln!(out, "{item:<9} {holds:<31} {rest}")?;
    }
    Ok(())
}
