//! Right texts with one to three damages.

use super::{groups, staged, stepwise};
use crate::rng::Rng;

pub fn text(rng: &mut Rng) -> Vec<u8> {
    let mut text = match rng.below(3) {
        0 => groups::text(rng),
        1 => staged::text(rng),
        _ => stepwise::small(rng),
    };
    for _ in 0..rng.pick(&[1, 1, 1, 2, 3]) {
        damage(rng, &mut text);
    }
    text
}

fn damage(rng: &mut Rng, text: &mut Vec<u8>) {
    const HUGE: [&str; 5] = [
        "4294967295",
        "4294967296",
        "18446744073709551616",
        "99999999999999999999999",
        "256",
    ];
    if text.is_empty() {
        return;
    }
    let at = rng.below(text.len());
    match rng.below(11) {
        0 => drop(text.remove(at)),
        1 => text.insert(at, likely_byte(rng)),
        2 => text[at] = likely_byte(rng),
        3 => text[at] = rng.below(256) as u8,
        4 => text.truncate(at),
        5 => text[at] = 0,
        6 => insert(text, at, rng.pick(&HUGE).as_bytes()),
        7 => insert(text, at, &vec![b'0'; rng.between(1, 40)]),
        8 => insert(
            text,
            at,
            rng.pick(&["(", ")", "2(", "0(", "()", "1(1(1(1("])
                .as_bytes(),
        ),
        9 => drop_bracket(rng, text),
        _ => repeat_part(rng, text, at),
    }
}

fn likely_byte(rng: &mut Rng) -> u8 {
    rng.pick(b"0123456789lvs.!() \n\r\t\0-+LVS\xff")
}

fn insert(text: &mut Vec<u8>, at: usize, part: &[u8]) {
    text.splice(at..at, part.iter().copied());
}

fn drop_bracket(rng: &mut Rng, text: &mut Vec<u8>) {
    let brackets: Vec<usize> = (0..text.len())
        .filter(|k| b"()".contains(&text[*k]))
        .collect();
    if !brackets.is_empty() {
        text.remove(rng.pick(&brackets));
    }
}

/// A part written twice, as when a file was put together wrongly.
fn repeat_part(rng: &mut Rng, text: &mut Vec<u8>, at: usize) {
    let end = (at + rng.between(1, 30)).min(text.len());
    let part = text[at..end].to_vec();
    let to = rng.below(text.len());
    insert(text, to, &part);
}
