//! `witness board-cases`, `board-listing`, `board-trace` and `compare-board`:
//! board traces run on a bench of their own (CR 12), as by the program
//! `board`.

use std::collections::BTreeMap;
use std::fs;
use std::path::{Path, PathBuf};
use std::process::Command;

use super::run::print;
use crate::boards::{case, check_records, printed, records_in, written, BoardRecord, Numbers};
use crate::schedule::{listing_of, Form, LISTING, TRACE};

/// Each file with its N, W and initial number.
pub fn cases(seed: u64, count: u64, dir: &str) -> Result<u8, String> {
    fs::create_dir_all(dir).map_err(|error| format!("{dir}: {error}"))?;
    for index in 0..count {
        let case = case(seed, index);
        let Numbers { n, w, initial } = case.bench;
        let stem = Path::new(dir).join(format!("{index:05}"));
        put(&stem.with_extension("board"), &case.file)?;
        let numbers = format!("{n} {w} {initial}\n");
        put(&stem.with_extension("numbers"), numbers.as_bytes())?;
    }
    print(format!("{count} board traces in {dir}\n").as_bytes())
}

pub fn listing(numbers: Numbers, file: &str) -> Result<u8, String> {
    shown(numbers, file, &LISTING)
}

pub fn trace(numbers: Numbers, file: &str) -> Result<u8, String> {
    shown(numbers, file, &TRACE)
}

/// Status 1 where the run is refused.
fn shown(numbers: Numbers, file: &str, form: &Form) -> Result<u8, String> {
    let (listed, bytes) = printed(numbers, &bytes_of(Path::new(file))?, form);
    print(&bytes)?;
    Ok(u8::from(listed.number != 0))
}

/// PROGRAM run, trace, schedule, text and make on every file of DIR. A trace
/// or a schedule may be too long, which is status 2.
pub fn compare(program: &str, dir: &str) -> Result<u8, String> {
    let mut seen = BTreeMap::new();
    let (mut traces, mut schedules) = (0, 0);
    for path in boards_in(dir)? {
        let case = Called::of(program, &path)?;
        let listed = case.alike("run", &LISTING)?;
        *seen.entry(listed).or_insert(0) += 1;
        traces += u64::from(case.trace()?);
        schedules += u64::from(case.schedule()?);
        case.lines()?;
    }
    let report = format!("{traces} traces, {schedules} schedules, 0 differ; by number: {seen:?}\n");
    print(report.as_bytes())?;
    let numbers = [0, 1, 2, 4, 5, 6, 7, 25, 26];
    let all = numbers.iter().all(|number| seen.contains_key(number));
    Ok(u8::from(!all || traces == 0 || schedules == 0))
}

struct Called {
    program: String,
    path: PathBuf,
    numbers: Numbers,
    file: Vec<u8>,
}

impl Called {
    fn of(program: &str, path: &Path) -> Result<Called, String> {
        let text = bytes_of(&path.with_extension("numbers"))?;
        let text = String::from_utf8_lossy(&text).into_owned();
        let words: Vec<&str> = text.split_whitespace().collect();
        let [n, w, initial] = words[..] else {
            return Err(format!("{}: three numbers expected", path.display()));
        };
        Ok(Called {
            program: program.to_string(),
            path: path.to_path_buf(),
            numbers: numbers(n, w, initial)?,
            file: bytes_of(path)?,
        })
    }

    fn call(&self, command: &str, words: &[&Path]) -> Result<(Vec<u8>, Option<i32>), String> {
        let Numbers { n, w, initial } = self.numbers;
        let mut call = Command::new(&self.program);
        call.arg(command);
        if ["run", "trace", "schedule"].contains(&command) {
            call.args([n.to_string(), w.to_string(), initial.to_string()]);
        }
        let output = call.args(words).output();
        let output = output.map_err(|error| format!("{call:?}: {error}"))?;
        Ok((output.stdout, output.status.code()))
    }

    fn differs(&self, what: &str) -> String {
        format!("{}: another {what} expected", self.path.display())
    }

    /// The same bytes and status; the number.
    fn alike(&self, command: &str, form: &Form) -> Result<u8, String> {
        let (listed, bytes) = printed(self.numbers, &self.file, form);
        let (told, status) = self.call(command, &[&self.path])?;
        if told != bytes || status != Some(i32::from(listed.number != 0)) {
            return Err(self.differs(command));
        }
        Ok(listed.number)
    }

    fn trace(&self) -> Result<bool, String> {
        let (told, status) = self.call("trace", &[&self.path])?;
        if status == Some(2) && told.is_empty() {
            return Ok(false);
        }
        self.alike("trace", &TRACE).map(|_| true)
    }

    /// A schedule of the same commands has the same listing.
    fn schedule(&self) -> Result<bool, String> {
        let (text, status) = self.call("schedule", &[&self.path])?;
        let right = self.records().is_some();
        match status {
            Some(0) if right => {}
            Some(1) if !right => return Ok(false),
            Some(2) if right && text.is_empty() => return Ok(false),
            _ => return Err(self.differs("schedule")),
        }
        let (listing, _, _) = listing_of(&text, None);
        if listing != printed(self.numbers, &self.file, &LISTING).1 {
            return Err(self.differs("schedule"));
        }
        Ok(true)
    }

    /// The lines of a right file, and the file made of them.
    fn lines(&self) -> Result<(), String> {
        let (told, status) = self.call("text", &[&self.path])?;
        let Some(records) = self.records() else {
            let refused = told.is_empty() && status == Some(1);
            return refused.then_some(()).ok_or(self.differs("refusal"));
        };
        let lines: String = records.iter().map(line_of).collect();
        if told != lines.as_bytes() || status != Some(0) {
            return Err(self.differs("text"));
        }
        let (text, out) = (
            self.path.with_extension("text"),
            self.path.with_extension("out"),
        );
        put(&text, &told)?;
        let (_, status) = self.call("make", &[&text, &out])?;
        if status != Some(0) || bytes_of(&out)? != written(&[], &records) {
            return Err(self.differs("file made of its lines"));
        }
        Ok(())
    }

    fn records(&self) -> Option<Vec<BoardRecord>> {
        let records = records_in(&self.file).ok()?;
        check_records(&records).ok()?;
        Some(records)
    }
}

/// "TICK PROCESS ORDER", and the value of an SC.
fn line_of(record: &BoardRecord) -> String {
    let BoardRecord { tick, process, .. } = record;
    match record.order {
        0 => format!("{tick} {process} .\n"),
        1 => format!("{tick} {process} l\n"),
        2 => format!("{tick} {process} s {}\n", record.value),
        _ => format!("{tick} {process} v\n"),
    }
}

pub fn numbers(n: &str, w: &str, initial: &str) -> Result<Numbers, String> {
    let wrong = |word: &str| format!("{word} is not a number");
    Ok(Numbers {
        n: n.parse().map_err(|_| wrong(n))?,
        w: w.parse().map_err(|_| wrong(w))?,
        initial: initial.parse().map_err(|_| wrong(initial))?,
    })
}

fn boards_in(dir: &str) -> Result<Vec<PathBuf>, String> {
    let entries = fs::read_dir(dir).map_err(|error| format!("{dir}: {error}"))?;
    let paths = entries.filter_map(|entry| entry.ok().map(|entry| entry.path()));
    let is_board = |path: &PathBuf| path.extension().is_some_and(|ending| ending == "board");
    let mut paths: Vec<PathBuf> = paths.filter(is_board).collect();
    paths.sort();
    Ok(paths)
}

fn bytes_of(path: &Path) -> Result<Vec<u8>, String> {
    fs::read(path).map_err(|error| format!("{}: {error}", path.display()))
}

fn put(path: &Path, bytes: &[u8]) -> Result<(), String> {
    fs::write(path, bytes).map_err(|error| format!("{}: {error}", path.display()))
}
