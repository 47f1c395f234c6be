//! Texts written without a look at the bench: right notation whose entries
//! are refused sooner or later, and mere scribble.

use super::author::number;
use super::stepwise;
use crate::rng::Rng;

/// Any items, alone or after a right text.
pub fn text(rng: &mut Rng) -> Vec<u8> {
    let n = rng.between(1, 3);
    let mut text = if rng.once_in(2) {
        stepwise::small(rng)
    } else {
        format!("{n} {} {}\n", rng.between(1, 3), number(rng)).into_bytes()
    };
    text.push(b'\n');
    for _ in 0..rng.between(1, 30) {
        let item = item(rng, n);
        text.extend_from_slice(item.as_bytes());
        text.push(b' ');
    }
    text
}

fn item(rng: &mut Rng, n: usize) -> String {
    let p = process(rng, n);
    match rng.below(12) {
        0..=2 => format!("{p}l"),
        3 => format!("{p}v"),
        4 => format!("{p}s{}", number(rng)),
        5..=7 => format!("{p}."),
        8 => format!("{}({})", rng.between(1, 9), item(rng, n)),
        _ => format!("{p}!"),
    }
}

/// Mostly a process of the bench, at times N itself or a number far above.
fn process(rng: &mut Rng, n: usize) -> u64 {
    match rng.below(60) {
        0 => n as u64,
        1 => rng.pick(&[16, 255, 256, 65_536, 4_294_967_295]),
        _ => rng.below(n) as u64,
    }
}

/// Pieces of notation in any order after a right first line.
pub fn scribble(rng: &mut Rng) -> Vec<u8> {
    const PIECES: [&str; 24] = [
        "0", "1", "2", "9", "00", "255", "256", "l", "v", ".", "!", "s7", "s", "(", "(", ")", ")",
        " ", " ", " ", "\n", "0l", "0! ", "1(",
    ];
    let mut text = String::from("2 1 5\n");
    for _ in 0..rng.between(0, 40) {
        text.push_str(rng.pick(&PIECES));
    }
    text.into_bytes()
}
