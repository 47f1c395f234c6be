//! Right notation with groups in groups, to eight deep.

use super::author::number;
use crate::rng::Rng;

const DEEPEST: usize = 8;

pub fn text(rng: &mut Rng) -> Vec<u8> {
    let (n, w) = (rng.between(1, 4), rng.between(1, 4));
    let mut text = format!("{n} {w} {}\n", number(rng));
    for _ in 0..rng.between(1, 3) {
        group(rng, n, 1, &mut text);
        text.push('\n');
    }
    text.into_bytes()
}

/// Counts stay small at most depths: with large ones a run would come to
/// its 60,000 entries before it left the innermost group.
fn group(rng: &mut Rng, n: usize, depth: usize, text: &mut String) {
    let count = if rng.once_in(25) {
        rng.between(1, 255)
    } else {
        rng.pick(&[1, 1, 1, 2, 3])
    };
    text.push_str(&format!("{count}("));
    text.push_str(rng.pick(&["", " ", "\n"]));
    for k in 0..rng.pick(&[1, 1, 2, 3]) {
        if k > 0 {
            text.push_str(rng.pick(&[" ", " ", "\n", "  "]));
        }
        if depth < DEEPEST && !rng.once_in(4) {
            group(rng, n, depth + 1, text);
        } else {
            calls(rng, n, depth, text);
        }
        if text.len() > 4000 {
            break;
        }
    }
    text.push_str(rng.pick(&["", " ", "\n"]));
    text.push(')');
}

/// Whole calls, which may be repeated: they begin and end idle. One of them
/// holds a group itself, and so has no place in the innermost one.
fn calls(rng: &mut Rng, n: usize, depth: usize, text: &mut String) {
    let p = rng.below(n);
    let calls = match rng.below(4) {
        0 => format!("{p}l {p}!"),
        1 => format!("{p}l {p}! {p}v {p}!"),
        2 if depth < DEEPEST => format!("{p}l 3({p}.) {p}!"),
        _ => format!("{p}l {p}! {p}s{} {p}!", number(rng)),
    };
    text.push_str(&calls);
}
