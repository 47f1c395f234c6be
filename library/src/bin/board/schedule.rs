//! Records as a schedule text, what repeats folded into groups.

use crate::lines::LETTERS;
use crate::records::number_at;
use crate::run::Bench;

/// The limits of a text run.
pub const MOST_ENTRIES: usize = 60_000;
const MOST_BYTES: usize = 16_384;
const MOST_TIMES: usize = 255;
const MOST_DEPTH: usize = 8;

/// A group of more items is not looked for.
const LONGEST: usize = 128;

/// The item of a record.
pub fn item(record: &[u8]) -> String {
    let letter = LETTERS[usize::from(record[9])];
    match letter {
        's' => format!("{}s{}", record[8], number_at(record, 4)),
        _ => format!("{}{letter}", record[8]),
    }
}

/// The whole text; why there is none, where there is none.
pub fn text(bench: &Bench, items: &[String]) -> Result<String, String> {
    if items.len() > MOST_ENTRIES {
        return Err(format!(
            "{} commands are more than the 60,000 of a schedule",
            items.len()
        ));
    }
    let parts = folded(items, MOST_DEPTH);
    let text = format!(
        "{} {} {}\n{}\n",
        bench.n,
        bench.w,
        bench.initial,
        lines(&parts)
    );
    if text.len() > MOST_BYTES {
        let length = text.len();
        return Err(format!(
            "as a schedule it has {length} bytes, and a schedule 16,384 at the most"
        ));
    }
    Ok(text)
}

/// Lines of about a hundred characters.
fn lines(parts: &[String]) -> String {
    let mut text = String::new();
    let mut column = 0;
    for part in parts {
        if column > 0 {
            let new = column + part.len() > 100;
            text.push(if new { '\n' } else { ' ' });
            column = if new { 0 } else { column };
        }
        text.push_str(part);
        column += part.len() + 1;
    }
    text
}

/// The items and groups: at each place the repetition that saves most bytes.
fn folded(items: &[String], depth: usize) -> Vec<String> {
    let mut parts = Vec::new();
    let mut at = 0;
    while at < items.len() {
        match best(&items[at..]).filter(|_| depth > 0) {
            Some((length, times)) => {
                let inside = folded(&items[at..at + length], depth - 1).join(" ");
                parts.push(format!("{times}({inside})"));
                at += length * times;
            }
            None => {
                parts.push(items[at].clone());
                at += 1;
            }
        }
    }
    parts
}

/// How many items are repeated how often, where that is shorter.
fn best(items: &[String]) -> Option<(usize, usize)> {
    let mut found = None;
    let mut most = 0;
    for length in 1..=LONGEST.min(items.len() / 2) {
        let times = repeated(items, length);
        if times < 2 {
            continue;
        }
        let bytes: usize = items[..length].iter().map(|item| item.len() + 1).sum();
        let saved = (bytes * (times - 1)).saturating_sub("255()".len());
        if saved > most {
            (most, found) = (saved, Some((length, times)));
        }
    }
    found
}

fn repeated(items: &[String], length: usize) -> usize {
    let first = &items[..length];
    let all = items.chunks_exact(length);
    all.take(MOST_TIMES)
        .take_while(|part| *part == first)
        .count()
}

#[cfg(test)]
mod tests {
    use super::*;

    fn items(text: &str) -> Vec<String> {
        text.split(' ').map(str::to_string).collect()
    }

    /// What a text of groups says, item by item.
    fn said(text: &str) -> Vec<String> {
        let (all, rest) = said_from(text);
        assert_eq!(rest, "");
        all
    }

    fn said_from(mut text: &str) -> (Vec<String>, &str) {
        let mut all = Vec::new();
        while !text.is_empty() && !text.starts_with(')') {
            let end = text.find([' ', '(', ')']).unwrap_or(text.len());
            let (word, rest) = text.split_at(end);
            if let Some(inside) = rest.strip_prefix('(') {
                let (part, rest) = said_from(inside);
                let times = word.parse().unwrap();
                assert!((1..=255).contains(&times));
                all.extend(std::iter::repeat(part).take(times).flatten());
                text = rest.strip_prefix(')').unwrap();
            } else {
                all.push(word.to_string());
                text = rest;
            }
            text = text.strip_prefix(' ').unwrap_or(text);
        }
        (all, text)
    }

    #[test]
    fn folding() {
        let steps = vec!["0.".to_string(); 60_000];
        let text = folded(&steps, 8).join(" ");
        assert!(text.len() < 100, "{text}");
        assert_eq!(said(&text), steps);
        assert_eq!(folded(&items("0l 0. 0. 1l"), 8).join(" "), "0l 0. 0. 1l");
        assert_eq!(
            folded(&items("0l 0. 0. 0. 0. 1l"), 8).join(" "),
            "0l 4(0.) 1l"
        );
    }

    #[test]
    fn says_the_same() {
        let mut state = 1_u64;
        for _ in 0..300 {
            let mut all = Vec::new();
            for _ in 0..200 {
                state = state
                    .wrapping_mul(6_364_136_223_846_793_005)
                    .wrapping_add(1);
                let times = (state >> 33) % 9;
                let item = ["0.", "1.", "0l", "12s4294967295"][(state >> 60) as usize % 4];
                all.extend((0..times).map(|_| item.to_string()));
            }
            let again = [all.clone(), all].concat();
            assert_eq!(said(&folded(&again, 8).join(" ")), again);
        }
    }
}
