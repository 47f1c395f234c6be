//! `witness station-lists`, `station-replies`, `station-cover` and
//! `compare-station`: CR 10.

use std::collections::BTreeMap;
use std::fs;
use std::path::Path;

use super::compare::against;
use super::files::texts_in;
use super::run::{given, print};
use super::tally_rows::tally_rows;
use crate::machine::Tally;
use crate::station::{limit_lists, list, replies, List};

pub fn lists(seed: u64, count: u64, dir: &str) -> Result<u8, String> {
    fs::create_dir_all(dir).map_err(|error| format!("{dir}: {error}"))?;
    let limits = limit_lists();
    for index in 0..count {
        let path = Path::new(dir).join(format!("{index:05}.txt"));
        let text = list(seed, index, &limits).written();
        fs::write(&path, text).map_err(|error| format!("{}: {error}", path.display()))?;
    }
    print(format!("{count} lists in {dir}\n").as_bytes())
}

/// One list from standard input.
pub fn print_replies() -> Result<u8, String> {
    print(replies(&List::read(&given()?)?).written().as_bytes())
}

/// Another program on the same lists.
pub fn compare(program: &str, dir: &str) -> Result<u8, String> {
    against(program, dir, "replies", |path| {
        Ok(replies(&list_in(path)?).written().into_bytes())
    })
}

fn list_in(path: &Path) -> Result<List, String> {
    let text = fs::read_to_string(path).map_err(|error| format!("{}: {error}", path.display()))?;
    List::read(&text).map_err(|fault| format!("{}: {fault}", path.display()))
}

/// The refusals of a set-up and of a command.
const REFUSALS: [(&str, &[u8]); 2] = [
    ("set-up", &[1, 2, 23, 3, 8]),
    ("command", &[4, 24, 8, 5, 6, 7]),
];

/// What the lists of a folder reach; status 1 if something is missing.
pub fn cover(dir: &str) -> Result<u8, String> {
    let mut rows: BTreeMap<String, u64> = BTreeMap::new();
    for (what, numbers) in REFUSALS {
        rows.insert(format!("{what} accepted"), 0);
        rows.extend(numbers.iter().map(|k| (format!("{what} refused {k}"), 0)));
    }
    rows.extend((1..=8).map(|r| (format!("records {r}"), 0)));
    let mut tally = Tally::default();
    for path in texts_in(dir)? {
        let list = list_in(&path)?;
        let run = replies(&list);
        for (k, line) in run.lines.iter().enumerate() {
            let what = if k == 0 { "set-up" } else { "command" };
            *rows.entry(format!("{what} {}", outcome(line))).or_default() += 1;
        }
        if let Some(bench) = run.bench {
            *rows
                .entry(format!("records {}", list.set_up.sizes.r))
                .or_default() += 1;
            tally.add(bench.tally());
        }
    }
    let strange = tally.strange;
    rows.extend(tally_rows(&tally));
    for (name, times) in &rows {
        print(format!("{name:<30} {times:>9}\n").as_bytes())?;
    }
    Ok(u8::from(
        strange > 0 || rows.values().any(|times| *times == 0),
    ))
}

/// A reply without its numbers, but for that of a refusal.
fn outcome(line: &str) -> &str {
    match line.split(' ').next() {
        Some("refused") => line,
        word => word.unwrap_or(""),
    }
}
