//! Logs to compare judges with: histories of random runs with good moments,
//! the same with one thing spoilt, logs at the limits, and cut ones.

use super::{Log, Logger, MOST_CALLS};
use crate::machine::Order;
use crate::rng::Rng;

/// What is done to logs to spoil them. (A moment at its answer mostly does
/// no harm.)
pub const SPOILT: [&str; 21] = [
    "N out of range",
    "W out of range",
    "value too short",
    "process not below N",
    "largest process",
    "answer at its start",
    "largest start",
    "kind 0",
    "kind 4 or above",
    "another kind",
    "another's moment",
    "moment at its start",
    "moment after its answer",
    "moment just after its start",
    "other truth",
    "truth of 2 or above",
    "one bit of a word",
    "start at another's answer",
    "a call left out",
    "last call cut",
    "last call cut, its process not below N",
];

/// A log, what was done to it, and whether it must earn a yes.
pub struct Sample {
    pub log: Log,
    pub what: &'static str,
    pub yes: bool,
}

/// The log of this number.
pub fn sample(seed: u64, index: u64) -> Sample {
    let rng = &mut Rng::stream(seed, index);
    let calls = match rng.below(120) {
        0 => MOST_CALLS,
        1 => MOST_CALLS + 1,
        2..=20 => rng.between(0, 3),
        _ => rng.between(4, 40),
    };
    let n = rng.pick(&[1, 2, 2, 3, 4, 16]);
    let w = rng.pick(&[1, 1, 2, 3, 64]);
    let log = history(rng, n, w, calls);
    if calls > MOST_CALLS || rng.once_in(4) {
        let yes = calls <= MOST_CALLS;
        return as_it_is(log, yes);
    }
    spoilt(rng, log)
}

fn as_it_is(log: Log, yes: bool) -> Sample {
    Sample {
        log,
        what: "as it is",
        yes,
    }
}

/// A log for measuring: so many calls by 16 processes.
pub fn bench_log(calls: usize, w: usize) -> Log {
    history(&mut Rng::stream(1, 1), 16, w, calls)
}

/// A run of the bench in which one process is slow and so gets helped.
fn history(rng: &mut Rng, n: usize, w: usize, calls: usize) -> Log {
    let mut logger = Logger::new(n, &words(rng, w));
    let pause = rng.between(1, 40);
    while logger.calls() < calls {
        let p = match rng.once_in(pause) {
            true => 0,
            false => rng.below(n),
        };
        let steps = if p == 0 { rng.between(1, 4) } else { 8 * w + 8 };
        for _ in 0..steps {
            if logger.calls() == calls {
                break;
            }
            command(&mut logger, rng, p, w);
        }
    }
    logger.into_log()
}

fn command(logger: &mut Logger, rng: &mut Rng, p: usize, w: usize) {
    let order = match rng.below(10) {
        _ if !logger.is_idle(p) => Order::Step,
        0 if !logger.has_linked(p) => Order::Validate,
        _ if !logger.has_linked(p) => Order::Load,
        0..=3 => Order::Load,
        4..=8 => Order::Store(words(rng, w)),
        _ => Order::Validate,
    };
    // a refused command takes a place and is no call
    let _ = logger.command(p as u64, &order);
}

/// Words small and large: equal ones, and the largest.
fn words(rng: &mut Rng, w: usize) -> Vec<u64> {
    let word = match rng.below(4) {
        0 => u64::MAX,
        1 => rng.below(3) as u64,
        _ => rng.bits(),
    };
    (0..w as u64).map(|k| word.wrapping_sub(k)).collect()
}

/// One thing of the log changed.
fn spoilt(rng: &mut Rng, mut log: Log) -> Sample {
    let width = 6 + log.w as usize;
    let rows = log.numbers.len() / width;
    let what = match rng.below(22) {
        0 => spoil(&mut log, "N out of range", |log| {
            log.n = [0, 17, u64::MAX][rows % 3]
        }),
        1 => spoil(&mut log, "W out of range", |log| {
            log.w = [0, 65, 66][rows % 3]
        }),
        2 => spoil(&mut log, "value too short", |log| {
            log.value.pop();
            log.numbers.clear();
        }),
        _ if rows == 0 => return as_it_is(log, true),
        kind => {
            let at = width * rng.below(rows);
            let other = width * rng.below(rows);
            in_a_row(&mut log, rng, kind, at, other)
        }
    };
    Sample {
        log,
        what,
        yes: false,
    }
}

fn spoil(log: &mut Log, what: &'static str, how: impl FnOnce(&mut Log)) -> &'static str {
    how(log);
    what
}

fn in_a_row(log: &mut Log, rng: &mut Rng, kind: usize, at: usize, other: usize) -> &'static str {
    let width = 6 + log.w as usize;
    let ns = &mut log.numbers;
    let (start, answer, truth) = (ns[at + 2], ns[at + 3], ns[at + 4]);
    let word = at + 6 + rng.below(width - 6);
    let (place, number, what) = match kind {
        3 => (at, log.n, "process not below N"),
        4 => (at, u64::MAX, "largest process"),
        5 => (at + 3, start, "answer at its start"),
        6 => (at + 2, u64::MAX, "largest start"),
        7 => (at + 1, 0, "kind 0"),
        8 => (at + 1, 4 + rng.bits() % 3, "kind 4 or above"),
        9 => (at + 1, 1 + rng.bits() % 3, "another kind"),
        10 => (at + 5, ns[other + 5], "another's moment"),
        11 => (at + 5, start, "moment at its start"),
        12 => (at + 5, answer + 1, "moment after its answer"),
        13 => (at + 5, start + 1, "moment just after its start"),
        14 => (at + 5, answer, "moment at its answer"),
        15 => (at + 4, 1 - truth.min(1), "other truth"),
        16 => (at + 4, 2 + rng.bits() % 3, "truth of 2 or above"),
        17 => (word, ns[word] ^ (1 << rng.below(64)), "one bit of a word"),
        18 => (other + 2, answer, "start at another's answer"),
        _ => return shortened(log, rng, kind, at),
    };
    ns[place] = number;
    what
}

fn shortened(log: &mut Log, rng: &mut Rng, kind: usize, at: usize) -> &'static str {
    let width = 6 + log.w as usize;
    let ns = &mut log.numbers;
    if kind == 19 {
        ns.drain(at..at + width);
        return "a call left out";
    }
    ns.truncate(ns.len() - width + rng.between(1, width - 1));
    if kind == 20 {
        return "last call cut";
    }
    let first = ns.len() / width * width;
    ns[first] = log.n;
    "last call cut, its process not below N"
}
