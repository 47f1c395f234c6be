//! `witness difference --wrong KIND` and `witness counterexample SEED TRIES
//! --wrong KIND`: what a wrong reading of Figure 2 does.

use super::run::{print, say, text_given};
use crate::counterexample;
use crate::history::{of_text, search, Found};
use crate::machine::Wrong;
use crate::schedule::{listing_of, told, trace_of};

/// A search for an order looks at no more positions.
const MOST_POSITIONS: usize = 300_000;

/// The text given, run by Figure 2 and by the wrong reading: the first
/// difference of the two traces, the two listings side by side, and whether
/// the wrong run's answers tear the record. Status 1 where they differ, and 2
/// where nothing was carried out.
pub fn difference(wrong: Wrong) -> Result<u8, String> {
    let text = text_given()?;
    let (right, outcome, _) = listing_of(&text, None);
    let (torn, wrong_outcome, _) = listing_of(&text, Some(wrong));
    if outcome.number != 0 {
        say(&told(&text, outcome));
    }
    if wrong_outcome.number != 0 && wrong_outcome != outcome {
        let name = wrong.name();
        say(&format!(
            "{}, with the reading {name}",
            told(&text, wrong_outcome)
        ));
    }
    if outcome.number != 0 && outcome.entries == 0 {
        return Ok(2);
    }
    let traces = [trace_of(&text, None), trace_of(&text, Some(wrong))];
    let mut report = "Not proved: both runs are made by tests/witness, a simulator written apart \
                      from the bench.\n"
        .to_string();
    report += &compared(&lines(&traces[0]), &lines(&traces[1]), outcome.number != 0);
    report += &side_by_side(&lines(&right), &lines(&torn), wrong.name());
    report += &tearing(&text, wrong);
    print(report.as_bytes())?;
    Ok(u8::from(traces[0] != traces[1]))
}

/// Whether an order of LL, SC and VL gives the answers of the wrong run.
fn tearing(text: &[u8], wrong: Wrong) -> String {
    let history = of_text(text, Some(wrong)).expect("the text is right");
    let told = match search(&history, MOST_POSITIONS) {
        Found::NoOrder => "Torn: no order of LL, SC and VL gives the answers of the wrong run.",
        Found::Order(_) => {
            "Not torn: an order of LL, SC and VL gives the answers of the wrong run."
        }
        Found::GivenUp => {
            "Torn or not: the search for an order of the wrong run's calls was given up."
        }
    };
    format!("{told}\n")
}

fn compared(right: &[String], torn: &[String], refused: bool) -> String {
    match first_difference(right, torn) {
        None if refused => "The two traces are the same, up to the refusal.\n".to_string(),
        None => "The two traces are the same.\n".to_string(),
        Some(at) => difference_at(at, right, torn),
    }
}

/// A schedule text, ready to paste; status 1 where none was found.
pub fn counterexample(seed: u64, tries: u64, wrong: Wrong) -> Result<u8, String> {
    match counterexample::counterexample(seed, tries, wrong) {
        Some(text) => print(text.as_bytes()),
        None => Ok(1),
    }
}

fn lines(bytes: &[u8]) -> Vec<String> {
    let text = String::from_utf8_lossy(bytes);
    text.lines().map(str::to_string).collect()
}

fn first_difference(a: &[String], b: &[String]) -> Option<usize> {
    let same = a.iter().zip(b).take_while(|(x, y)| x == y).count();
    (same < a.len() || same < b.len()).then_some(same)
}

/// The line before the difference is shown too, if there is one.
fn difference_at(at: usize, right: &[String], torn: &[String]) -> String {
    let line = |lines: &[String]| lines.get(at).cloned().unwrap_or("no such line".to_string());
    let mut report = format!("The two traces differ first in line {}:\n", at + 1);
    if at > 0 {
        report += &format!("  both      {}\n", right[at - 1]);
    }
    report += &format!("  Figure 2  {}\n", line(right));
    report += &format!("  wrong     {}\n", line(torn));
    report
}

/// Lines that differ are marked.
fn side_by_side(right: &[String], torn: &[String], name: &str) -> String {
    let width = right.iter().map(String::len).max().unwrap_or(0);
    let width = width.max("Figure 2".len()).min(60);
    let mut report = format!("Listings:\n  {:<width$}   {name}\n", "Figure 2");
    for k in 0..right.len().max(torn.len()) {
        let line = |lines: &[String]| lines.get(k).cloned().unwrap_or_default();
        let (a, b) = (line(right), line(torn));
        let mark = if a == b { ' ' } else { '*' };
        report += &format!("{mark} {a:<width$}   {b}\n");
    }
    report
}
