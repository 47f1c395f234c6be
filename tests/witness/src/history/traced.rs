//! The history of a schedule text, from its trace.

use super::object::Kind;
use super::record::{Call, History};
use crate::machine::{Reply, Wrong};
use crate::schedule::{parse, trace_of};

/// The calls that the text's run answers, up to its first refusal. A text
/// that is not right has none.
pub fn of_text(text: &[u8], wrong: Option<Wrong>) -> Option<History> {
    let schedule = parse(text).ok()?;
    let (n, w) = (schedule.n as usize, schedule.w as usize);
    let trace = String::from_utf8(trace_of(text, wrong)).ok()?;
    let mut open: Vec<Option<(Kind, u64)>> = vec![None; n];
    let mut calls = Vec::new();
    for line in trace.lines() {
        let words: Vec<&str> = line.split(' ').collect();
        let [place, process, access, ..] = words[..] else {
            continue; // the last line
        };
        let (Ok(place), Ok(p)) = (place.parse(), process.parse::<usize>()) else {
            continue; // a last line of three words
        };
        if access == "start" {
            open[p] = Some((kind_of(&words[3..], w), place));
        } else if let Some((_, answer)) = line.split_once(" answers ") {
            let (kind, start) = open[p].take().expect("the call was open");
            calls.push(Call {
                process: p,
                reply: reply_of(&kind, answer),
                kind,
                start,
                answer: place,
            });
        }
    }
    Some(History {
        n,
        initial: vec![schedule.initial; w],
        calls,
        script: String::new(),
    })
}

fn kind_of(words: &[&str], w: usize) -> Kind {
    match words {
        ["L"] => Kind::Load,
        ["V"] => Kind::Validate,
        _ => Kind::Store(vec![number(words[1]); w]),
    }
}

/// The words behind process, letter and count.
fn reply_of(kind: &Kind, answer: &str) -> Reply {
    let said: Vec<u64> = answer.split(' ').skip(3).map(number).collect();
    match kind {
        Kind::Load => Reply::Loaded(said),
        Kind::Store(_) => Reply::Stored(said[0] == 1),
        Kind::Validate => Reply::Validated(said[0] == 1),
    }
}

fn number(word: &str) -> u64 {
    word.parse().expect("a trace has numbers here")
}
