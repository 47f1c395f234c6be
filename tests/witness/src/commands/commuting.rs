//! `witness neighbours`, `marks`, `swaps` and `both-orders`: CR 13.

use super::compare::against_texts;
use super::run::{given, print, text_given};
use crate::commuting::{entries_of, marked, neighbours, survey, swaps, Survey};
use crate::schedule::trace_of;
use crate::station::small_list;

/// A trace from standard input: which neighbours may change places.
pub fn print_neighbours() -> Result<u8, String> {
    print(neighbours(&given()?)?.as_bytes())
}

/// A schedule text from standard input: its trace, with marks.
pub fn print_marks() -> Result<u8, String> {
    print(&marks_of(&text_given()?))
}

/// The traces with marks of another program.
pub fn compare_marks(program: &str, dir: &str) -> Result<u8, String> {
    against_texts(program, dir, "marks", marks_of)
}

fn marks_of(text: &[u8]) -> Vec<u8> {
    let trace = String::from_utf8(trace_of(text, None)).expect("a trace is plain text");
    marked(&trace)
        .expect("a trace has entries and a last line")
        .into_bytes()
}

/// A schedule text from standard input: its neighbours in both orders. Status
/// 1 if two that may change places come to different ends.
pub fn print_swaps() -> Result<u8, String> {
    let text = text_given()?;
    let (bench, commands) = entries_of(&text).ok_or("the text sets up no bench")?;
    let (lines, right) = swaps(bench, &commands);
    print(lines.as_bytes())?;
    Ok(u8::from(!right))
}

/// Two commands at every state of random lists, tried in both orders.
pub fn both_orders(seed: u64, count: u64) -> Result<u8, String> {
    let mut sums = Survey::default();
    for index in 0..count {
        match survey(&small_list(seed, index)) {
            Ok(counted) => sums.add(&counted),
            Err(two) => {
                print(format!("list {index}, after {two}: another outcome\n").as_bytes())?;
                return Ok(1);
            }
        }
    }
    let report = format!(
        "{} pairs may change places, and do: {} with a start, {} apart, {} both look\n\
         {} have an item in common that one alters; {} of these come to the same\n",
        sums.may(),
        sums.with_a_start,
        sums.apart,
        sums.both_look,
        sums.in_common,
        sums.in_common_but_same
    );
    print(report.as_bytes())
}
