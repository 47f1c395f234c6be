//! Lists for comparisons: several processes on several records, one of them
//! slow, some halted for good, and wrong commands in between.

use super::author::{words, Author};
use super::list::List;
use crate::machine::Order;
use crate::rng::Rng;

/// The list of this number. Every fourth one is a limit list until they are
/// used up, so 4 times their number makes a folder with all of them.
pub fn list(seed: u64, index: u64, limits: &[List]) -> List {
    if let (0, Some(list)) = (index % 4, limits.get((index / 4) as usize)) {
        return list.clone();
    }
    let rng = &mut Rng::stream(seed, index);
    let (n, w, r) = sizes(rng);
    let commands = rng.between(50, 1_200) + 8 * w;
    some_list(Author::new(rng, n, w, r), commands)
}

fn some_list(mut author: Author, commands: usize) -> List {
    match author.rng.below(2) {
        0 => turns(&mut author, commands),
        _ => stages(&mut author, commands),
    }
    author.into_list()
}

/// A right set-up and few commands, with which some calls stay open.
pub fn short_list(rng: &mut Rng) -> List {
    let n = rng.pick(&[1, 2, 2, 3, 4]);
    let (w, r) = (rng.between(1, 3), rng.between(1, 3));
    let commands = rng.pick(&[0, 0, 5, 30, 100]);
    let mut author = Author::new(rng, n, w, r);
    turns(&mut author, commands);
    author.into_list()
}

/// Few processes, words and records, so that a station is soon copied.
pub fn small_list(seed: u64, index: u64) -> List {
    let rng = &mut Rng::stream(seed, index);
    let (n, w, r) = (rng.between(2, 3), rng.between(1, 2), rng.between(1, 2));
    let commands = rng.between(50, 400);
    some_list(Author::new(rng, n, w, r), commands)
}

fn sizes(rng: &mut Rng) -> (usize, usize, usize) {
    let n = match rng.below(8) {
        0 => rng.between(5, 16),
        1 => 1,
        _ => rng.between(2, 4),
    };
    let w = match rng.below(12) {
        0 => rng.pick(&[4, 17, 63, 64]),
        _ => rng.between(1, 3),
    };
    let r = match rng.below(3) {
        0 => rng.between(1, 8),
        _ => rng.between(1, 3),
    };
    (n, w, r)
}

/// Processes take turns at random. One is slow, and now and then one halts
/// for good in the midst of its call.
fn turns(author: &mut Author, commands: usize) {
    let (slow, pause) = (author.rng.below(author.n), author.rng.between(1, 9));
    let (busiest, patience) = (author.rng.below(author.r), author.rng.between(1, 8));
    let mut halted = vec![false; author.n];
    while author.len() < commands {
        let p = author.rng.below(author.n);
        if halted[p] || p == slow && !author.rng.once_in(pause) {
            wrong(author);
            continue;
        }
        if author.is_idle(p) {
            let record = some_record(author, busiest);
            author.start_some(p, record);
        }
        if p != slow && author.rng.once_in(patience) {
            author.finish(p);
        } else {
            let w = author.w;
            let most = author.rng.pick(&[0, 1, 1, 2, 3, w, 2 * w, 2 * w + 2]);
            author.steps(p, most);
        }
        halted[p] = p != slow && !author.is_idle(p) && author.rng.once_in(150);
    }
}

/// Mostly the one on which all meet.
fn some_record(author: &mut Author, busiest: usize) -> usize {
    match author.rng.below(3) {
        0 => author.rng.below(author.r),
        _ => busiest,
    }
}

/// A slow call in parts, and between them whole writes on its record, whole
/// calls on others, or a call that stops too.
fn stages(author: &mut Author, commands: usize) {
    while author.len() < commands {
        let slow = author.rng.below(author.n);
        let record = author.rng.below(author.r);
        author.finish(slow);
        author.start_some(slow, record);
        for _ in 0..author.rng.between(1, 3) {
            let most = author.rng.between(0, 2 * author.w + 4);
            author.steps(slow, most);
            between(author, slow, record);
        }
        if author.rng.once_in(2) {
            author.finish(slow);
        }
    }
}

fn between(author: &mut Author, slow: usize, record: usize) {
    let times = author.rng.pick(&[0, 1, 1, 1, 2, 3, 2 * author.n]);
    for _ in 0..times {
        let p = author.rng.below(author.n);
        if p != slow {
            let record = some_record(author, record);
            author.write(p, record);
        }
    }
    wrong(author);
    let other = author.rng.below(author.n);
    if other != slow && author.rng.once_in(2) {
        if author.is_idle(other) {
            author.start_some(other, record);
        }
        let most = author.rng.between(0, 2 * author.w + 5);
        author.steps(other, most);
    }
}

/// One command with something wrong about it, often with two things.
fn wrong(author: &mut Author) {
    let rng = &mut *author.rng;
    let (n, r) = (author.n as u64, author.r as u64);
    let process = match rng.below(4) {
        0 => rng.pick(&[n, n + 1, 16, 255, 256, 1 << 32, u64::MAX]),
        _ => rng.bits() % n,
    };
    let record = match rng.below(4) {
        0 => rng.pick(&[r, r + 1, 8, 255, 256, 1 << 32, u64::MAX]),
        _ => rng.bits() % r,
    };
    let order = match rng.below(6) {
        0 => Order::Step,
        1 => Order::Load,
        2 => Order::Validate,
        3 => Order::Store(words(rng, author.w)),
        _ => {
            let w = author.w;
            let length = rng.pick(&[0, w - 1, w + 1, 2 * w]);
            Order::Store(words(rng, length))
        }
    };
    if process < n && !author.is_wrong(process as usize, record, &order) {
        return;
    }
    author.command(process, record, order);
}
