//! Lists of turns for comparisons.

use super::turns::{Call, TurnList};
use crate::machine::Order;
use crate::rng::Rng;
use crate::station::{limit_lists, right_set_up, words};

/// The list of this number.
pub fn turn_list(seed: u64, index: u64) -> TurnList {
    let rng = &mut Rng::stream(seed, index);
    let (n, w, r) = (
        rng.pick(&[1, 2, 2, 2, 3, 16]),
        rng.pick(&[1, 1, 2, 3]),
        rng.pick(&[1, 1, 2, 3, 8]),
    );
    let mut set_up = right_set_up(rng, n, w, r);
    if rng.once_in(20) {
        let limits = limit_lists();
        set_up = limits[rng.below(limits.len())].set_up.clone();
    }
    let calls = [0, 1].map(|_| some_calls(rng, w, r));
    TurnList {
        set_up,
        calls,
        turns: some_turns(rng),
    }
}

fn some_calls(rng: &mut Rng, w: usize, r: usize) -> Vec<Call> {
    let mut calls = Vec::new();
    for k in 0..rng.pick(&[0, 1, 3, 8, 20]) {
        let record = match rng.once_in(12) {
            true => rng.pick(&[r as u64, 8, 255]),
            false => rng.below(r) as u64,
        };
        let order = match rng.below(8) {
            _ if k == 0 && !rng.once_in(6) => Order::Load,
            0..=2 => Order::Load,
            3..=5 => Order::Store(words(rng, w)),
            6 => Order::Validate,
            _ => {
                let length = rng.pick(&[0, w - 1, w, w + 1]);
                Order::Store(words(rng, length))
            }
        };
        calls.push((order, record));
    }
    calls
}

/// Turns in runs of the same process, now and then a third one.
fn some_turns(rng: &mut Rng) -> Vec<u64> {
    let count = rng.pick(&[0, 5, 40, 100, 250]);
    let patience = rng.between(1, 25);
    let mut p = rng.below(2) as u64;
    let mut turns = Vec::new();
    while turns.len() < count {
        if rng.once_in(patience) {
            p = 1 - p;
        }
        turns.push(match rng.once_in(40) {
            true => rng.pick(&[2, 3, 16, 255]),
            false => p,
        });
    }
    turns
}
