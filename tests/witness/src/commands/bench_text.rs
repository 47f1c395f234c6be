//! `witness bench-text KIND N W`: long texts to measure a program with.

use crate::schedule::{listing_of, ENTRY_LIMIT, TEXT_LIMIT};
use crate::texts::repeat;

pub const KINDS: [&str; 10] = [
    "load", "store", "turns", "helped", "flat", "deep", "gaps", "numbers", "words", "answers",
];

/// A text whose run ends, as near to 60,000 entries as the listing room
/// and the text's length allow.
pub fn bench_text(kind: &str, n: u64, w: u64) -> Result<String, String> {
    if !(1..=16).contains(&n) || !(1..=64).contains(&w) {
        return Err("N is 1 to 16, W is 1 to 64".to_string());
    }
    let (n, w) = (n as usize, w as usize);
    let first = format!("{n} {w} 5\n");
    let text = match kind {
        "load" => longest(|times| first.clone() + &repeat(&loads(n), times)),
        "store" => longest(|times| first.clone() + &repeat(&stores(0..n), times)),
        "turns" => longest(|times| first.clone() + &repeat(&turns(n, w), times)),
        "helped" if n == 1 => return Err("nobody can help where N is 1".to_string()),
        "helped" => longest(|times| first.clone() + &repeat(&helped(n, w), times)),
        "deep" => longest(|times| first.clone() + &deep(times)),
        "gaps" => return Ok(longest(|times| first.clone() + &gaps(times, first.len()))),
        "numbers" => return Ok(longest(|times| first.clone() + &numbers(n).repeat(times))),
        "words" => return Ok(longest(|times| words(n, w) + &repeat(&loads(n), times))),
        "answers" => return Ok(longest(|times| first.clone() + &answers(times))),
        "flat" => return Ok(longest(|times| first.clone() + &flat(n, w).repeat(times))),
        _ => return Err(format!("KIND is one of {}", KINDS.join(", "))),
    };
    Ok(filled(text, n, w))
}

/// Every process in turn makes a whole LL.
fn loads(n: usize) -> String {
    joined((0..n).map(|p| format!("{p}l {p}!")))
}

/// Every process in turn makes a whole LL and a whole SC.
fn stores(processes: std::ops::Range<usize>) -> String {
    joined(processes.map(|p| format!("{p}l {p}! {p}s7 {p}!")))
}

/// All processes step side by side, up to the last step that none of them
/// can be without.
fn turns(n: usize, w: usize) -> String {
    let each = |sign: &str| joined((0..n).map(|p| format!("{p}{sign}")));
    let call = |start, steps| {
        let all_step = repeat(&each("."), steps);
        format!("{} {all_step} {}", each(start), each("!"))
    };
    format!("{} {}", call("l", 4 * w + 4), call("s7", 2 * w + 3))
}

/// The longest LL there is: help comes before line 4, a write before line 7.
fn helped(n: usize, w: usize) -> String {
    let write = stores(n - 1..n);
    format!("0l 2(0.) {}({write}) {}(0.) {write} 0!", 2 * n, 2 * w + 2)
}

/// Groups to the full depth, all but the innermost carried out twice.
fn deep(times: usize) -> String {
    let outer = 7;
    format!(
        "{}{times}({}){}",
        "2(".repeat(outer),
        stores(0..1),
        ")".repeat(outer)
    )
}

/// Long to read and short to run: a group of one LL with as many gaps
/// inside as the text has room for.
fn gaps(times: usize, before: usize) -> String {
    let group = |gap: &str| format!("{times}({gap}{})", loads(1));
    let room = TEXT_LIMIT.saturating_sub(before + group("").len());
    group(&" ".repeat(room))
}

/// Long numbers: the value of each SC has ten digits.
fn numbers(n: usize) -> String {
    let store = |p: usize| format!("{p}l {p}! {p}s4294967295 {p}!\n");
    (0..n).map(store).collect()
}

/// A listing of long numbers: each of the W words of an LL has ten digits.
fn words(n: usize, w: usize) -> String {
    format!("{n} {w} 4294967295\n")
}

/// A listing of short lines: an LL, and then VLs alone.
fn answers(times: usize) -> String {
    format!("0l 0! {}", repeat("0v 0!", times))
}

/// No groups, only items: the most text for its entries.
fn flat(n: usize, w: usize) -> String {
    let call = |p: usize| format!("{p}l {}{p}!\n", format!("{p}. ").repeat(4 * w + 4));
    (0..n).map(call).collect()
}

fn joined(parts: impl Iterator<Item = String>) -> String {
    parts.collect::<Vec<_>>().join(" ")
}

fn ends(text: &str) -> Option<u64> {
    let (_, outcome, _) = listing_of(text.as_bytes(), None);
    (outcome.number == 0).then_some(outcome.entries)
}

/// The text for the greatest number of times with which its run still ends.
fn longest(text: impl Fn(usize) -> String) -> String {
    let mut too_many = 1;
    while ends(&text(too_many)).is_some() {
        too_many *= 2;
    }
    let mut times = too_many / 2;
    while times + 1 < too_many {
        let middle = (times + too_many) / 2;
        if ends(&text(middle)).is_some() {
            times = middle;
        } else {
            too_many = middle;
        }
    }
    text(times)
}

/// Unfinished LLs for what is left of the 60,000 entries: they answer
/// nothing and so need no listing room.
fn filled(text: String, n: usize, w: usize) -> String {
    let mut more = text.clone();
    let mut left = ENTRY_LIMIT - ends(&text).unwrap_or(ENTRY_LIMIT);
    for p in 0..n {
        let steps = left.saturating_sub(1).min(4 * w as u64 + 4);
        if steps > 0 {
            let halted = repeat(&format!("{p}."), steps as usize);
            more.push_str(&format!(" {p}l {halted}"));
            left -= steps + 1;
        }
    }
    more.push('\n');
    if ends(&more).is_some() {
        more
    } else {
        text
    }
}
