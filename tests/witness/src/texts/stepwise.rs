//! Right texts whose processes take turns at random.

use super::author::Author;
use crate::rng::Rng;

/// Few processes and words, so that their calls meet in every way.
pub fn small(rng: &mut Rng) -> Vec<u8> {
    let (n, w) = (rng.between(1, 3), rng.between(1, 3));
    let turns = rng.between(20, 300);
    write(rng, n, w, turns)
}

/// Any N and W.
pub fn wide(rng: &mut Rng) -> Vec<u8> {
    let (n, w) = (rng.between(1, 16), rng.between(1, 64));
    write(rng, n, w, 200)
}

/// One process is slow: the others get through many calls while it stands.
fn write(rng: &mut Rng, n: usize, w: usize, turns: usize) -> Vec<u8> {
    let slow = rng.below(n);
    let pause = rng.between(1, 9);
    let patience = rng.between(1, 8);
    let mut author = Author::new(rng, n, w);
    for _ in 0..turns {
        let p = author.rng.below(n);
        if p == slow && !author.rng.once_in(pause) {
            continue;
        }
        if author.is_idle(p) {
            author.start_some(p);
        }
        if p != slow && author.rng.once_in(patience) {
            author.finish(p);
        } else {
            let most = author.rng.pick(&[0, 1, 1, 2, 3, w, 2 * w, 2 * w + 2]);
            author.steps(p, most);
        }
    }
    author.into_text()
}
