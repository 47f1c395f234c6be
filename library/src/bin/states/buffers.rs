//! The buffers: where each is, and its words.

use super::station::{Place, Station};

/// The rows of the table: buffer, place, words.
pub fn rows(station: &Station) -> Vec<[String; 3]> {
    let places = station.places();
    let row = |(b, place): (usize, &Place)| {
        let place = match place {
            Place::X => "X, the present value".to_string(),
            Place::Bank(i) => format!("kept at Bank[{i}]"),
            Place::Owned(p) => format!("owned by process {p}"),
        };
        [format!("BUF[{b}]"), place, words(station.buffer(b))]
    };
    places.iter().enumerate().map(row).collect()
}

/// The most words that are listed one by one.
const LISTED: usize = 8;

/// Words that are all the same are said once, and of many words the runs of
/// the same one.
pub fn words(words: &[u64]) -> String {
    match words {
        [first, _, ..] if words.iter().all(|word| word == first) => {
            format!("{first}, {} times", words.len())
        }
        _ if words.len() <= LISTED => {
            let words: Vec<String> = words.iter().map(u64::to_string).collect();
            words.join(" ")
        }
        _ => runs(words),
    }
}

fn runs(words: &[u64]) -> String {
    let mut from = 0;
    let run = |run: &[u64]| {
        let (begin, word) = (from, run[0]);
        from += run.len();
        match run.len() {
            1 => format!("[{begin}] {word}"),
            _ => format!("[{begin} to {}] {word}", from - 1),
        }
    };
    let runs: Vec<String> = words.chunk_by(|a, b| a == b).map(run).collect();
    runs.join("  ")
}
