//! Lists that are the same for every seed: set-ups at and past each limit,
//! with one fault or two, so that the order of the rows shows.

use super::author::Author;
use super::list::{List, SetUp};
use crate::machine::{Lent, Sizes};
use crate::rng::Rng;

const BASES: [(u64, u64, u64); 4] = [(2, 1, 1), (1, 3, 8), (3, 2, 2), (16, 64, 8)];

/// The numbers of a set-up by their place in its line: N, W, R, process
/// records, words, length of the value.
const PLACES: usize = 6;
type Numbers = [u64; PLACES];

pub fn limit_lists() -> Vec<List> {
    let mut lists = Vec::new();
    for (n, w, r) in BASES {
        lists.push(accepted(n, w, r));
        let right = right(n, w, r);
        lists.extend(faulty(right).into_iter().map(refused));
    }
    lists
}

/// A set-up that is right to the number, and some commands.
fn accepted(n: u64, w: u64, r: u64) -> List {
    let rng = &mut Rng::stream(1, n);
    let mut author = Author::new(rng, n as usize, w as usize, r as usize);
    for record in 0..author.r {
        author.write(record % n as usize, record);
    }
    let mut list = author.into_list();
    let [_, _, _, processes, words, _] = right(n, w, r);
    list.set_up.lent = Lent { processes, words };
    list
}

fn right(n: u64, w: u64, r: u64) -> Numbers {
    [n, w, r, n, Sizes { n, w, r }.words_needed(), w]
}

/// Every single fault, and every two of different places.
fn faulty(right: Numbers) -> Vec<Numbers> {
    let singles: Vec<(usize, u64)> = faults(right);
    let mut found = Vec::new();
    for (first, number) in &singles {
        let mut one = right;
        one[*first] = *number;
        found.push(one);
    }
    let worst: Vec<(usize, u64)> = (0..PLACES)
        .filter_map(|place| singles.iter().rev().find(|fault| fault.0 == place))
        .copied()
        .collect();
    for (k, (first, number)) in worst.iter().enumerate() {
        for (second, other) in &worst[k + 1..] {
            let mut two = right;
            two[*first] = *number;
            two[*second] = *other;
            found.push(two);
        }
    }
    found
}

fn faults([n, w, r, ..]: Numbers) -> Vec<(usize, u64)> {
    let words = |r: u64| (3 * r + 2) * n * w;
    let mut faults: Vec<(usize, u64)> = [0, 17, 257, 1 << 32, u64::MAX].map(|k| (0, k)).to_vec();
    faults.extend([0, 65, 257, 1 << 32, u64::MAX].map(|k| (1, k)));
    faults.extend([0, 9, 257, 1 << 32, u64::MAX].map(|k| (2, k)));
    faults.extend([0, n - 1].map(|k| (3, k)));
    faults.extend([0, words(r - 1), words(r) - 1].map(|k| (4, k)));
    faults.extend([0, w - 1, w + 1].map(|k| (5, k)));
    faults
}

fn refused([n, w, r, processes, words, length]: Numbers) -> List {
    List {
        set_up: SetUp {
            sizes: Sizes { n, w, r },
            lent: Lent { processes, words },
            value: vec![5; length as usize],
        },
        commands: Vec::new(),
    }
}
