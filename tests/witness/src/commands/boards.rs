//! `witness merge-files`, `board-run`, `board-pairs`, `board-limits`,
//! `compare-merge` and `compare-board-run`: CR 12.

use std::collections::BTreeMap;
use std::fs::{self, File};
use std::io::{Seek, SeekFrom, Write};
use std::path::{Path, PathBuf};
use std::process::Command;

use super::run::print;
use crate::boards::{limits, merge, pair, run_file, Limit, Pair};
use crate::station::{memory, replies, List};

/// Prints the number and the bytes written; OUT is left alone by a refusal.
pub fn merge_files(first: &str, second: &str, out: &str, room: u64) -> Result<u8, String> {
    let merged = merge(&bytes_of(first)?, &bytes_of(second)?, room);
    if let Ok(bytes) = &merged {
        put(Path::new(out), bytes)?;
    }
    print(merge_line(&merged).as_bytes())
}

fn merge_line(merged: &Result<Vec<u8>, u8>) -> String {
    match merged {
        Ok(bytes) => format!("0 {}\n", bytes.len()),
        Err(number) => format!("{number} 0\n"),
    }
}

/// A list is carried out on a station, then a file on its record 0.
pub fn board_run(list: &str, file: &str) -> Result<u8, String> {
    let list = fs::read_to_string(list).map_err(|error| format!("{list}: {error}"))?;
    print(file_report(&List::read(&list)?, &bytes_of(file)?).as_bytes())
}

/// The number, the commands done and the memory.
fn file_report(list: &List, file: &[u8]) -> String {
    let run = replies(list);
    let Some(mut bench) = run.bench else {
        return run.lines.join("\n") + "\n";
    };
    let done = run_file(&mut bench, file);
    let mut lines = vec![format!("{} {}", done.number, done.done)];
    lines.extend(memory(&bench));
    lines.join("\n") + "\n"
}

pub fn board_pairs(seed: u64, count: u64, dir: &str) -> Result<u8, String> {
    fs::create_dir_all(dir).map_err(|error| format!("{dir}: {error}"))?;
    for index in 0..count {
        let pair = pair(seed, index);
        let stem = Path::new(dir).join(format!("{index:05}"));
        put(&stem.with_extension("first"), &pair.first)?;
        put(&stem.with_extension("second"), &pair.second)?;
        put(
            &stem.with_extension("room"),
            format!("{}\n", pair.room).as_bytes(),
        )?;
        put(&stem.with_extension("list"), pair.list.written().as_bytes())?;
    }
    print(format!("{count} pairs in {dir}\n").as_bytes())
}

/// Pairs with files as long as they may be, and longer. What is not written
/// is zero, and a record of zeros is a step of process 0.
pub fn board_limits(dir: &str) -> Result<u8, String> {
    fs::create_dir_all(dir).map_err(|error| format!("{dir}: {error}"))?;
    for (index, limit) in limits().iter().enumerate() {
        let stem = Path::new(dir).join(format!("{index:05}"));
        put_zeros(&stem.with_extension("first"), limit)?;
        put(&stem.with_extension("second"), &limit.second)?;
        put(
            &stem.with_extension("room"),
            format!("{}\n", limit.room).as_bytes(),
        )?;
        put(&stem.with_extension("list"), b"1 1 1 1 5 1 5\n0 1 0 0\n")?;
    }
    print(format!("{} pairs in {dir}\n", limits().len()).as_bytes())
}

fn put_zeros(path: &Path, limit: &Limit) -> Result<(), String> {
    let written = File::create(path).and_then(|mut file| {
        file.set_len(limit.zeros)?;
        file.seek(SeekFrom::End(0))?;
        file.write_all(&limit.trailer)
    });
    written.map_err(|error| format!("{}: {error}", path.display()))
}

/// `PROGRAM FIRST SECOND OUT ROOM` as `merge-files`.
pub fn compare_merge(program: &str, dir: &str) -> Result<u8, String> {
    let mut numbers = Seen::of(&["0", "25", "26", "27", "28"]);
    for stem in stems(dir)? {
        let (pair, out) = (pair_at(&stem)?, stem.with_extension("out"));
        let _ = fs::remove_file(&out);
        let expected = merge(&pair.first, &pair.second, pair.room);
        let names = ["first", "second", "out"].map(|ending| stem.with_extension(ending));
        let mut call = Command::new(program);
        call.args(&names).arg(pair.room.to_string());
        let told = output_of(call)?;
        let made = fs::read(&out).ok();
        if told != merge_line(&expected) || made != expected.clone().ok() {
            let report = format!("{}: expected {}", stem.display(), merge_line(&expected));
            print(format!("{report}program:  {told}").as_bytes())?;
            return Ok(1);
        }
        numbers.note(&told);
    }
    numbers.report("merges")
}

/// `PROGRAM LIST FILE` as `board-run`, on both files and on what they merge
/// to.
pub fn compare_run(program: &str, dir: &str) -> Result<u8, String> {
    let mut numbers = Seen::of(&["0", "4", "5", "6", "7", "25", "26"]);
    for stem in stems(dir)? {
        let pair = pair_at(&stem)?;
        let mut files = vec![
            ("first", pair.first.clone()),
            ("second", pair.second.clone()),
        ];
        if let Ok(merged) = merge(&pair.first, &pair.second, u64::MAX) {
            put(&stem.with_extension("merged"), &merged)?;
            files.push(("merged", merged));
        }
        for (ending, file) in files {
            let expected = file_report(&pair.list, &file);
            let name = stem.with_extension(ending);
            let mut call = Command::new(program);
            call.args([&stem.with_extension("list"), &name]);
            let told = output_of(call)?;
            if told != expected {
                print(format!("{} differs\n{expected}---\n{told}", name.display()).as_bytes())?;
                return Ok(1);
            }
            numbers.note(&told);
        }
    }
    numbers.report("runs")
}

/// How often each number came up.
struct Seen(BTreeMap<String, u64>);

impl Seen {
    fn of(numbers: &[&str]) -> Seen {
        Seen(
            numbers
                .iter()
                .map(|number| (number.to_string(), 0))
                .collect(),
        )
    }

    fn note(&mut self, told: &str) {
        let number = told.split(' ').next().unwrap_or("");
        *self.0.entry(number.to_string()).or_default() += 1;
    }

    /// Status 1 if a number never came up: too few pairs.
    fn report(&self, what: &str) -> Result<u8, String> {
        print(format!("compared {what}, 0 differ; by number: {:?}\n", self.0).as_bytes())?;
        Ok(u8::from(self.0.values().any(|times| *times == 0)))
    }
}

/// The pairs of a folder, by the names of their first files.
fn stems(dir: &str) -> Result<Vec<PathBuf>, String> {
    let entries = fs::read_dir(dir).map_err(|error| format!("{dir}: {error}"))?;
    let mut paths = Vec::new();
    for entry in entries {
        let path = entry.map_err(|error| format!("{dir}: {error}"))?.path();
        if path.extension().is_some_and(|ending| ending == "first") {
            paths.push(path.with_extension(""));
        }
    }
    paths.sort();
    Ok(paths)
}

fn pair_at(stem: &Path) -> Result<Pair, String> {
    let bytes = |ending: &str| bytes_of(&stem.with_extension(ending).display().to_string());
    let text =
        |ending: &str| Ok::<_, String>(String::from_utf8_lossy(&bytes(ending)?).into_owned());
    let room = text("room")?;
    Ok(Pair {
        first: bytes("first")?,
        second: bytes("second")?,
        room: room
            .trim()
            .parse()
            .map_err(|_| "the room is not a number")?,
        list: List::read(&text("list")?)?,
        spoilt: None,
    })
}

fn bytes_of(path: &str) -> Result<Vec<u8>, String> {
    fs::read(path).map_err(|error| format!("{path}: {error}"))
}

fn put(path: &Path, bytes: &[u8]) -> Result<(), String> {
    fs::write(path, bytes).map_err(|error| format!("{}: {error}", path.display()))
}

fn output_of(mut call: Command) -> Result<String, String> {
    let output = call
        .output()
        .map_err(|error| format!("{call:?}: {error}"))?;
    Ok(String::from_utf8_lossy(&output.stdout).into_owned())
}
