//! A refusal told: where, and why, in the words of docs/NOTATION.md.

use super::parse::{parse, Fault};
use super::run::{Outcome, TEXT_LIMIT};

/// What is told of a text run that was refused.
pub fn told(text: &[u8], outcome: Outcome) -> String {
    let number = outcome.number;
    if text.len() > TEXT_LIMIT {
        return format!("refused {number}: the text has more than 16,384 bytes");
    }
    match parse(text) {
        Err(fault) => told_place(text, fault) + why(number),
        Ok(_) if number <= 2 => format!("refused {number}: line 1: {}", why(number)),
        Ok(_) => {
            let entry = outcome.entries + 1;
            format!("refused {number}: entry {entry}: {}", why(number))
        }
    }
}

/// Lines and columns count from 1, a column for each byte.
pub fn told_place(text: &[u8], fault: Fault) -> String {
    let before = &text[..fault.place];
    let line = before.split(|byte| *byte == b'\n').count();
    let start = before.iter().rposition(|byte| *byte == b'\n');
    let column = fault.place - start.map_or(0, |at| at + 1) + 1;
    format!("refused {}: line {line}, column {column}: ", fault.number)
}

fn why(number: u8) -> &'static str {
    match number {
        1 => "N is not 1 to 16",
        2 => "W is not 1 to 64",
        4 => "the process is not below N",
        5 => "a start at a process that has an open call",
        6 => "a step, or !, at a process that has no open call",
        7 => "an SC or VL of a process of which no LL was ever answered",
        10 => "the text breaks the notation (docs/NOTATION.md)",
        11 => "groups nest at most eight deep, and this ( would open a ninth",
        12 => "60,000 entries are done, which is the most",
        14 => "there is no room for another line",
        _ => unreachable!("a text reaches no such row"),
    }
}
