//! Listings for comparisons: right ones, and damaged ones.

use super::LISTING_LIMIT;
use crate::rng::Rng;

const LARGEST: usize = 4_294_967_295;

/// Numbers of every length, and the ends of their range.
fn number(rng: &mut Rng) -> usize {
    match rng.below(8) {
        0 => rng.below(10),
        1 => LARGEST - rng.below(3),
        2 => rng.below(LARGEST),
        _ => rng.below(600),
    }
}

fn answer(rng: &mut Rng, n: u64, w: u64) -> String {
    let process = rng.below(n as usize);
    let count = number(rng);
    match rng.pick(b"LLSSSV") {
        b'L' => {
            let words: String = (0..w).map(|_| format!(" {}", number(rng))).collect();
            format!("{process} L {count}{words}\n")
        }
        letter => format!("{process} {} {count} {}\n", letter as char, rng.below(2)),
    }
}

fn last(rng: &mut Rng) -> String {
    if rng.once_in(4) {
        format!("refused {} {}\n", number(rng), number(rng))
    } else {
        format!("end {}\n", number(rng))
    }
}

/// A right listing of so many answers.
pub fn right(rng: &mut Rng, n: u64, w: u64, answers: usize) -> Vec<u8> {
    let lines: String = (0..answers).map(|_| answer(rng, n, w)).collect();
    (lines + &last(rng)).into_bytes()
}

/// A right listing of W = 1 with exactly this many bytes, 6 or more.
pub fn with_length(bytes: usize) -> Vec<u8> {
    let line = "0 L 10 5\n";
    let end = "end ";
    let mut text = line.repeat((bytes - 6) / line.len());
    let left = bytes - text.len() - end.len() - 1;
    // what is left is one to nine digits
    text += end;
    text += &"1".repeat(left);
    text.push('\n');
    text.into_bytes()
}

/// A listing with one to three faults, which may still be right.
pub fn damaged(rng: &mut Rng, n: u64, w: u64, answers: usize) -> Vec<u8> {
    let mut bytes = match rng.below(6) {
        0 => right(rng, n + 1, w, answers),
        1 => right(rng, n, w + 1, answers),
        _ => right(rng, n, w, answers),
    };
    for _ in 0..rng.between(1, 3) {
        damage(rng, &mut bytes);
    }
    bytes
}

fn damage(rng: &mut Rng, bytes: &mut Vec<u8>) {
    let strange = rng.pick(b"  \n\n00112789LSVXerndfus-\0\xff");
    let at = rng.below(bytes.len() + 1);
    match rng.below(7) {
        0 => bytes.insert(at, strange),
        1 => bytes.truncate(at),
        2 => {
            let line = bytes.iter().position(|byte| *byte == b'\n').unwrap_or(0);
            bytes.drain(..line);
        }
        3 => bytes.push(strange),
        4 => {
            let zero = bytes.iter().skip(at).position(|byte| *byte == b' ');
            bytes.insert(zero.map_or(0, |offset| at + offset + 1), b'0');
        }
        _ if at < bytes.len() => {
            if rng.once_in(2) {
                bytes[at] = strange;
            } else {
                bytes.remove(at);
            }
        }
        _ => bytes.clear(),
    }
}

/// A listing as near to 65,536 bytes as its lines allow; KIND is `wide`
/// (W words of ten digits), `small` (W words of one digit) or `short` (SCs
/// and VLs).
pub fn bench_listing(kind: &str, n: u64, w: u64) -> Result<Vec<u8>, String> {
    let rng = &mut Rng::stream(1, 0);
    let mut text = String::new();
    loop {
        let process = rng.below(n as usize);
        let line = match kind {
            "short" => format!(
                "{process} {} {} {}\n",
                rng.pick(&['S', 'V']),
                rng.between(132, 136),
                rng.below(2)
            ),
            "wide" | "small" => {
                let most = if kind == "wide" { LARGEST } else { 9 };
                let words: String = (0..w)
                    .map(|_| format!(" {}", rng.between(most / 2, most)))
                    .collect();
                format!("{process} L {}{words}\n", 4 * w + 6)
            }
            _ => return Err("KIND is wide, small or short".to_string()),
        };
        if text.len() + line.len() + 10 > LISTING_LIMIT {
            return Ok((text + "end 60000\n").into_bytes());
        }
        text += &line;
    }
}
