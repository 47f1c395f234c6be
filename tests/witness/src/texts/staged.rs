//! Right texts in stages: one call stops at a chosen place while others run
//! whole, then goes on to the next place, and so on. The rare outcomes of
//! lines 7, 9, 13 and 15 hang on such stops.

use super::author::Author;
use crate::rng::Rng;

pub fn text(rng: &mut Rng) -> Vec<u8> {
    let (n, w) = (rng.between(2, 3), rng.between(1, 3));
    let rounds = rng.between(1, 4);
    let mut author = Author::new(rng, n, w);
    let begin = author.rng.below(2 * n + 1);
    writes(&mut author, n, begin);
    for _ in 0..rounds {
        if author.rng.once_in(4) {
            late_check(&mut author);
        } else {
            round(&mut author);
        }
    }
    author.into_text()
}

/// One slow call in two to four parts.
fn round(author: &mut Author) {
    let slow = author.rng.below(author.n);
    if author.is_idle(slow) {
        author.start_some(slow);
    }
    for _ in 0..author.rng.between(1, 3) {
        let most = author.rng.between(0, 2 * author.w + 4);
        author.steps(slow, most);
        between(author, slow);
    }
    if !author.is_idle(slow) {
        author.finish(slow);
    }
}

/// An SC stands past line 13 while another succeeds and the others then ask
/// for help: the SC sees a request but its VL(X) of line 14 is false.
fn late_check(author: &mut Author) {
    let slow = author.rng.below(author.n);
    finish_all(author);
    author.load(slow);
    author.finish(slow);
    author.store(slow);
    let most = author.rng.between(1, 4);
    author.steps(slow, most);
    let times = author.rng.between(1, author.n + 1);
    writes(author, slow, times);
    for p in (0..author.n).filter(|p| *p != slow) {
        author.load(p);
        let most = author.rng.between(0, 2 * author.w + 5);
        author.steps(p, most);
    }
    author.finish(slow);
}

fn finish_all(author: &mut Author) {
    for p in 0..author.n {
        if !author.is_idle(p) {
            author.finish(p);
        }
    }
}

/// What happens while the slow call stands: whole writes, or another call
/// that also stops halfway.
fn between(author: &mut Author, slow: usize) {
    let times = author.rng.pick(&[0, 1, 1, 1, 2, 3, 2 * author.n]);
    writes(author, slow, times);
    let other = author.rng.below(author.n);
    if other != slow && author.rng.once_in(2) {
        if author.is_idle(other) {
            author.start_some(other);
        }
        let most = author.rng.between(0, 2 * author.w + 5);
        author.steps(other, most);
    }
}

/// LL and SC by processes other than the one left out. A call that stood
/// halfway is finished first.
fn writes(author: &mut Author, left_out: usize, times: usize) {
    for _ in 0..times {
        let p = author.rng.below(author.n);
        if p == left_out {
            continue;
        }
        if !author.is_idle(p) {
            author.finish(p);
        }
        author.load(p);
        author.finish(p);
        author.store(p);
        author.finish(p);
    }
}
