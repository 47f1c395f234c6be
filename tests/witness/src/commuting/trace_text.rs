//! The neighbours of a trace, from its text alone.

use super::touch::{may_change_places, verdict_text, Item, Touch};
use crate::machine::{Half, Place};

/// A line for each two neighbouring entries: `K K+1 yes`, or `K K+1 no` and
/// why: `same process` or the item. The last line has how many may.
pub fn neighbours(trace: &str) -> Result<String, String> {
    let touches = touches_of_trace(trace)?;
    let (mut text, mut may) = (String::new(), 0);
    for (k, two) in touches.windows(2).enumerate() {
        let told = verdict_text(may_change_places(&two[0], &two[1]));
        may += u64::from(told == "yes");
        text += &format!("{} {} {told}\n", k + 1, k + 2);
    }
    let pairs = touches.len().saturating_sub(1);
    Ok(text + &format!("{may} of {pairs}\n"))
}

/// What each entry touches. The last line, `end E` or `refused C E`, is none.
pub fn touches_of_trace(trace: &str) -> Result<Vec<Touch>, String> {
    let lines: Vec<&str> = trace.lines().collect();
    let Some((last, entries)) = lines.split_last() else {
        return Err("a trace has a last line".to_string());
    };
    if !last.starts_with("end ") && !last.starts_with("refused ") {
        return Err(format!("{last}: no last line"));
    }
    let touch = |line: &&str| touch_of(line).ok_or(format!("{line}: no entry"));
    entries.iter().map(touch).collect()
}

/// `ENTRY P start ..`, or `ENTRY P LINE PLACE ACT ..`.
fn touch_of(line: &str) -> Option<Touch> {
    let words: Vec<&str> = line.split(' ').collect();
    let (process, rest) = (words.get(1)?.parse().ok()?, words.get(3..)?);
    if *words.get(2)? == "start" {
        return Some(Touch {
            process,
            item: None,
        });
    }
    let (place, act) = place_and_act(rest)?;
    let only_looks = match act {
        "LL" | "VL" | "read" => true,
        "SC" | "write" => false,
        _ => return None,
    };
    let item = Some(Item {
        record: 0,
        place,
        only_looks,
    });
    Some(Touch { process, item })
}

fn place_and_act<'a>(words: &[&'a str]) -> Option<(Place, &'a str)> {
    let (name, numbers) = words.first()?.split_once('[').unwrap_or((words[0], ""));
    let index = |text: &str| text.trim_end_matches(']').parse().ok();
    match name {
        "X" => Some((Place::X, words.get(1)?)),
        "Bank" => Some((Place::Bank(index(numbers)?), words.get(1)?)),
        "Help" => Some((Place::Help(index(numbers)?), words.get(1)?)),
        "BUF" => {
            let (buffer, word) = numbers.split_once("][")?;
            let half = match *words.get(1)? {
                "low" => Half::Low,
                "high" => Half::High,
                _ => return None,
            };
            let place = Place::HalfWord(buffer.parse().ok()?, index(word)?, half);
            Some((place, words.get(2)?))
        }
        _ => None,
    }
}
