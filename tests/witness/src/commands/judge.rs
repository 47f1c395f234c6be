//! `witness judge`, `witness log`, `witness bench-log CALLS W` and
//! `witness compare-judge PROGRAM SEED COUNT`.

use std::collections::{BTreeMap, BTreeSet};
use std::fs::{self, File};
use std::io::{stdin, Read};
use std::path::Path;
use std::process::Command;

use super::run::{print, text_given};
use crate::judge::{
    bench_log, judge, line_of, log_of_schedule, read, reason, sample, written, Log, Reason, Sample,
    Verdict, SPOILT,
};

const VERDICTS: [&str; 8] = [
    "yes",
    "no",
    "refused 1",
    "refused 2",
    "refused 4",
    "refused 8",
    "refused 16",
    "refused 17",
];

/// The program `judge`.
pub fn judge_text() -> Result<u8, String> {
    let mut text = Vec::new();
    stdin()
        .read_to_end(&mut text)
        .map_err(|error| error.to_string())?;
    match read(&text) {
        Ok(log) => print(format!("{}\n", judge(&log)).as_bytes()),
        Err(fault) => Err(format!("{fault:?}")),
    }
}

/// The log of a schedule text.
pub fn log() -> Result<u8, String> {
    let log = log_of_schedule(&text_given()?).map_err(|number| format!("refused {number}"))?;
    print(written(&log).as_bytes())
}

pub fn bench(calls: u64, w: u64) -> Result<u8, String> {
    if !(1..=64).contains(&w) {
        return Err("W is 1 to 64".to_string());
    }
    let log = bench_log(calls as usize, w as usize);
    print(written(&log).as_bytes())
}

/// Another judge on the same logs, with its reasons; FILE is where each log
/// is put. All verdicts and conditions must come up, and each way to spoil a
/// log must spoil one.
pub fn compare(program: &str, seed: u64, count: u64, file: &str) -> Result<u8, String> {
    let mut verdicts: BTreeMap<String, u64> = BTreeMap::new();
    let mut spoilt: BTreeSet<&str> = BTreeSet::new();
    let mut conditions = [0u64; 7];
    for index in 0..count {
        let sample = sample(seed, index);
        // the judges see the text, in which a log with a short value has
        // the first numbers of its calls for words
        let text = written(&sample.log);
        let log = read(text.as_bytes()).map_err(|fault| format!("{fault:?}"))?;
        let expected = judge(&log);
        check(&sample, &log, expected)?;
        fs::write(file, &text).map_err(|error| format!("{file}: {error}"))?;
        let (answer, message) = answer_of(program, file)?;
        let why = reason(&log);
        let told = said(expected, &message);
        let meant = meant(expected, &log, &text, &why);
        if answer != format!("{expected}\n") || told != meant {
            let what = sample.what;
            print(format!("{file} ({what}): {expected} expected, {answer}{meant:?} expected, {told:?} of {message}\n").as_bytes())?;
            return Ok(1);
        }
        conditions[why.condition as usize] += 1;
        *verdicts.entry(expected.to_string()).or_default() += 1;
        if expected != Verdict::Yes {
            spoilt.insert(sample.what);
        }
    }
    let missing: Vec<&&str> = VERDICTS
        .iter()
        .filter(|verdict| !verdicts.contains_key(**verdict))
        .chain(SPOILT.iter().filter(|what| !spoilt.contains(*what)))
        .collect();
    if conditions[1..].contains(&0) {
        print(format!("never seen, so {count} logs are too few: {conditions:?}\n").as_bytes())?;
        return Ok(1);
    }
    if !missing.is_empty() {
        print(format!("never seen, so {count} logs are too few: {missing:?}\n").as_bytes())?;
        return Ok(1);
    }
    let conditions = &conditions[1..];
    print(
        format!("judged {count} logs alike: {verdicts:?}, by condition {conditions:?}\n")
            .as_bytes(),
    )
}

/// A history with its own moments earns a yes, whatever either judge says.
fn check(sample: &Sample, log: &Log, verdict: Verdict) -> Result<(), String> {
    if sample.yes && verdict != Verdict::Yes {
        let text = written(log);
        return Err(format!(
            "a history of the bench was judged {verdict}:\n{text}"
        ));
    }
    Ok(())
}

/// What a message has to say: the condition, the lines, what the object
/// answers.
#[derive(PartialEq, Eq, Debug, Default)]
struct Told {
    condition: u8,
    lines: Vec<usize>,
    object: String,
}

fn meant(verdict: Verdict, log: &Log, text: &str, why: &Reason) -> Told {
    let width = 6 + log.w as usize;
    let first = 2 + log.w as usize;
    let mut lines: Vec<usize> = why
        .calls
        .iter()
        .map(|call| line_of(text, first + call * width))
        .collect();
    // N and W are the first two numbers
    match verdict {
        Verdict::Refused(1) => lines.push(line_of(text, 0)),
        Verdict::Refused(2) => lines.push(line_of(text, 1)),
        _ => {}
    }
    let object: Vec<String> = why.object.iter().map(u64::to_string).collect();
    Told {
        condition: why.condition,
        lines,
        object: object.join(" "),
    }
}

/// What the first line of a message says: 'VERDICT: ', for a no 'condition
/// C: ', the lines, and after the colon more, with 'object answers WORDS'.
fn said(verdict: Verdict, message: &str) -> Told {
    let line = message.lines().next().unwrap_or("");
    let Some(rest) = line.strip_prefix(&format!("{verdict}: ")) else {
        return Told::default();
    };
    let mut told = Told::default();
    let mut rest = rest;
    if let Some((condition, more)) = rest
        .strip_prefix("condition ")
        .and_then(|rest| rest.split_once(": "))
    {
        told.condition = condition.parse().unwrap_or(0);
        rest = more;
    }
    let places = rest.split_once(": ").map_or("", |(places, _)| places);
    told.lines = places
        .split(" and ")
        .filter_map(|place| place.strip_prefix("line ")?.parse().ok())
        .collect();
    if let Some((_, object)) = rest.split_once("object answers ") {
        told.object = object.split(',').next().unwrap_or("").to_string();
    }
    told
}

fn answer_of(program: &str, file: &str) -> Result<(String, String), String> {
    let path = Path::new(file);
    let text = File::open(path).map_err(|error| format!("{file}: {error}"))?;
    let output = Command::new(program).stdin(text).output();
    let output = output.map_err(|error| format!("{program}: {error}"))?;
    let said = |bytes: &[u8]| String::from_utf8_lossy(bytes).into_owned();
    Ok((said(&output.stdout), said(&output.stderr)))
}
