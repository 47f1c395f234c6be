//! Schedule texts for comparisons: right ones that reach the rare places,
//! refused ones, damaged ones, and ones at every limit.

mod author;
mod blind;
mod damaged;
mod first_line;
mod groups;
mod limits;
mod numbers;
mod repeat;
mod staged;
mod stepwise;

pub use repeat::repeat;

use crate::rng::Rng;

/// The texts that are the same for every seed.
pub fn limit_texts() -> Vec<Vec<u8>> {
    let mut texts = limits::texts();
    texts.extend(numbers::texts());
    texts
}

/// The text of this number. Every fourth one is a limit text until they
/// are used up, so 4 times their number makes a folder with all of them.
pub fn text(seed: u64, index: u64, limits: &[Vec<u8>]) -> Vec<u8> {
    if let (0, Some(text)) = (index % 4, limits.get((index / 4) as usize)) {
        return text.clone();
    }
    let rng = &mut Rng::stream(seed, index);
    match rng.below(20) {
        0..=4 => stepwise::small(rng),
        5 => stepwise::wide(rng),
        6..=10 => staged::text(rng),
        11 => groups::text(rng),
        12..=13 => blind::text(rng),
        14 => blind::scribble(rng),
        15 => first_line::text(rng),
        _ => damaged::text(rng),
    }
}
