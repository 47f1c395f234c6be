//! `witness schedules`, `ways`, `schedule-questions`, `schedule-answers`,
//! `turn-lists`, `turns`, `compare-turns` and `interleavings`: CR 5.

use std::fs;
use std::io::{stdout, BufWriter, Write};
use std::path::Path;

use super::compare::against;
use super::run::{given, print};
use crate::interleaving::{
    answer, every_schedule, interleavings, questions, turn_list, ways, Plan, Question, TurnList,
    MOST_TURNS,
};

/// All schedules of a and b turns, a line each.
pub fn schedules(a: u64, b: u64) -> Result<u8, String> {
    if a > MOST_TURNS || b > MOST_TURNS {
        return print(b"refused 20\n");
    }
    let mut out = BufWriter::new(stdout().lock());
    let mut written = Ok(());
    every_schedule(a as usize, b as usize, &mut |turns| {
        let digits: Vec<u8> = turns.iter().map(|turn| b'0' + turn).collect();
        if written.is_ok() {
            written = out.write_all(&[&digits[..], b"\n"].concat());
        }
    });
    let written = written.and_then(|()| out.flush());
    written.map(|()| 0).map_err(|error| error.to_string())
}

/// The ways to finish: line a, from 0, has those of b = 0 to 32.
pub fn print_ways() -> Result<u8, String> {
    for a in 0..=MOST_TURNS {
        let row: Vec<String> = (0..=MOST_TURNS).map(|b| ways(a, b).to_string()).collect();
        print((row.join(" ") + "\n").as_bytes())?;
    }
    Ok(0)
}

/// All about a and b up to 6, then COUNT random ones up to 32.
pub fn print_questions(seed: u64, count: u64) -> Result<u8, String> {
    let all = questions(seed, count, 6);
    let text: String = all.iter().map(Question::written).collect();
    print(text.as_bytes())
}

pub fn print_answers() -> Result<u8, String> {
    let mut text = String::new();
    for line in given()?.lines() {
        text += &answer(&Question::read(line)?);
        text.push('\n');
    }
    print(text.as_bytes())
}

pub fn turn_lists(seed: u64, count: u64, dir: &str) -> Result<u8, String> {
    fs::create_dir_all(dir).map_err(|error| format!("{dir}: {error}"))?;
    for index in 0..count {
        let path = Path::new(dir).join(format!("{index:05}.txt"));
        let text = turn_list(seed, index).written();
        fs::write(&path, text).map_err(|error| format!("{}: {error}", path.display()))?;
    }
    print(format!("{count} lists of turns in {dir}\n").as_bytes())
}

pub fn turns() -> Result<u8, String> {
    let list = TurnList::read(&given()?)?;
    print(list.carried_out().written().as_bytes())
}

/// Another program on the same lists of turns.
pub fn compare(program: &str, dir: &str) -> Result<u8, String> {
    against(program, dir, "turns", |path| {
        let text = fs::read_to_string(path).map_err(|error| error.to_string())?;
        Ok(TurnList::read(&text)?.carried_out().written().into_bytes())
    })
}

pub fn all() -> Result<u8, String> {
    let plan = Plan::read(&given()?)?;
    match interleavings(&plan) {
        Ok(survey) => print(survey.written().as_bytes()),
        Err(number) => print(format!("refused {number}\n").as_bytes()),
    }
}
