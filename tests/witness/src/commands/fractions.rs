//! `witness fractions N W FILE...`: the program `fractions` of
//! `docs/FRACTIONS.md`, and `witness bench-listing KIND N W`.

use std::fs::File;
use std::io::{ErrorKind, Read};
use std::path::Path;

use super::run::print;
use crate::season::{bench_listing, Refusal, Season, LISTING_LIMIT};

/// What the program prints and what it says beside that.
pub struct Report {
    pub table: String,
    pub notes: String,
}

pub fn fractions(n: u64, w: u64, names: &[&str]) -> Result<u8, String> {
    let report = report(n, w, names);
    eprint!("{}", report.notes);
    print(report.table.as_bytes())
}

pub fn report(n: u64, w: u64, names: &[&str]) -> Report {
    let mut season = Season::empty(n, w);
    let mut notes = String::new();
    if season.refusal() != 0 {
        let table = format!("refused {}\n", season.refusal());
        return Report { table, notes };
    }
    let mut bytes = Vec::with_capacity(LISTING_LIMIT + 1);
    for (index, name) in names.iter().enumerate() {
        match read_into(Path::new(name), &mut bytes) {
            Err(error) => notes += &format!("{name}: {}\n", cause(error.kind())),
            Ok(()) => {
                if let Err(refusal) = season.add(&bytes) {
                    notes += &format!("{name}: {}\n", told(refusal, &bytes));
                }
            }
        }
        if (index + 1) % 256 == 0 {
            notes += &format!("{} of {} files\n", index + 1, names.len());
        }
    }
    let mut table = format!("taken {} of {}\n", season.taken, names.len());
    for (process, (scs, lls)) in season.table().unwrap_or_default().iter().enumerate() {
        table += &format!("{process} {scs} {lls}\n");
    }
    Report { table, notes }
}

/// The listing, and one byte more to see that it is too long.
fn read_into(path: &Path, bytes: &mut Vec<u8>) -> Result<(), std::io::Error> {
    bytes.clear();
    let file = File::open(path)?;
    file.take(LISTING_LIMIT as u64 + 1).read_to_end(bytes)?;
    Ok(())
}

fn cause(kind: ErrorKind) -> &'static str {
    match kind {
        ErrorKind::NotFound => "No such file or directory",
        _ => "Is a directory",
    }
}

fn told(refusal: Refusal, bytes: &[u8]) -> String {
    if refusal.number != 18 {
        return format!("refused {}", refusal.number);
    }
    let line = 1 + bytes[..refusal.at]
        .iter()
        .filter(|byte| **byte == b'\n')
        .count();
    format!("refused 18 at byte {}, line {line}", refusal.at)
}

pub fn print_bench_listing(kind: &str, n: u64, w: u64) -> Result<u8, String> {
    print(&bench_listing(kind, n, w)?)
}
